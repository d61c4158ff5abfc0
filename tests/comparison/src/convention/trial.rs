//! A program called from the outside and held to the convention, for the packages' tests.

use std::path::Path;
use std::process::{Command, Output, Stdio};

/// The words of a call, as a shell reads them; the exit status that is due; and what is due on one
/// of the streams. For status 2 it follows the program's name on the error stream, for another it
/// is in the answer. If it is empty nothing is written there, and on the other stream never.
pub type Row<'a> = (&'a str, i32, &'a str);

const UNWRITTEN: &str = "standard output cannot be written: ";
const CLOSED: &str = "standard output or the error stream is closed\n";

/// Tries what all programs do alike, with words for which this one writes an answer; and then the
/// program's own rows. Panics at the first call that does not keep the convention.
pub fn hold(program: &str, answering: &str, rows: &[Row]) {
    let file = Path::new(program).file_name().expect("a file's path");
    let help = format!("{} ", file.to_str().expect("a name in letters"));
    let answer = call(program, "--help").stdout;
    assert!(answer.starts_with(help.as_bytes()), "{help}: {answer:?}");
    let alike = [
        ("--help", 0, help.as_str()),
        ("--help >/dev/full", 2, UNWRITTEN),
        ("--help >&-", 2, CLOSED),
        ("--help 2>&-", 2, ""),
        ("--unknown", 2, &format!("the words are: {help}")),
        ("--unknown 2>/dev/full", 2, ""),
        ("\"$(printf '\\377')\"", 2, "a word that is no text: "),
        (&format!("{answering} >/dev/full"), 2, UNWRITTEN),
        (&format!("{answering} >&-"), 2, CLOSED),
    ];
    for row in alike.iter().chain(rows) {
        hold_row(program, help.trim_end(), *row);
    }
}

fn call(program: &str, words: &str) -> Output {
    Command::new("sh")
        .args(["-c", &format!("exec \"$0\" {words}"), program])
        .stdin(Stdio::null())
        .output()
        .expect("there is a shell")
}

fn hold_row(program: &str, name: &str, (words, status, due): Row) {
    let ended = call(program, words);
    let [answer, messages] =
        [&ended.stdout, &ended.stderr].map(|bytes| String::from_utf8_lossy(bytes));
    let is_told = match (status, due) {
        (_, "") => answer.is_empty() && messages.is_empty(),
        (2, _) => answer.is_empty() && messages.starts_with(&format!("{name}: {due}")),
        _ => answer.contains(due) && messages.is_empty(),
    };
    assert!(
        ended.status.code() == Some(status) && is_told,
        "{name} {words}: {}, where {status} and '{due}' are due\n{answer}{messages}",
        ended.status
    );
}
