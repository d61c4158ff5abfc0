//! What is said of a stream at which the program fails.

use comparison::formats::files::decimal;

/// No more than so many bytes of a stream are shown.
const SHOWN_BYTES: usize = 300;

/// No more than so many characters of a line are shown, some of them in front of the difference.
const SHOWN_CHARACTERS: usize = 200;
const IN_FRONT: usize = 40;

/// The bytes in decimal, the first few hundred of them.
pub fn shown(stream: &[u8]) -> String {
    let length = stream.len();
    if length <= SHOWN_BYTES {
        return format!("{length} bytes: {}", decimal(stream));
    }
    let front = decimal(&stream[..SHOWN_BYTES]);
    format!("{length} bytes, of which the first {SHOWN_BYTES}: {front}")
}

/// Where two outputs part, with the lines at which they do; nothing if they are the same.
pub fn difference(program: &[u8], second: &[u8]) -> Option<String> {
    if program == second {
        return None;
    }
    let lines = |output: &[u8]| -> Vec<Vec<u8>> {
        (output.split_inclusive(|byte| *byte == b'\n'))
            .map(<[u8]>::to_vec)
            .collect()
    };
    let (ours, theirs) = (lines(program), lines(second));
    let same = ours
        .iter()
        .zip(&theirs)
        .take_while(|(one, other)| one == other);
    let number = same.count();
    let at = common(ours.get(number), theirs.get(number));
    let mut text = format!("line {} differs, from character {} on", number + 1, at + 1);
    for (name, lines) in [("program", ours), ("second interpreter", theirs)] {
        let line = line_about(lines.get(number), at);
        text += &format!("\n  {name}, of {} lines: {line}", lines.len());
    }
    Some(text)
}

/// How many characters two lines have in common at the front.
fn common(one: Option<&Vec<u8>>, other: Option<&Vec<u8>>) -> usize {
    let (Some(one), Some(other)) = (one, other) else {
        return 0;
    };
    one.iter()
        .zip(other)
        .take_while(|(one, other)| one == other)
        .count()
}

/// The part of a line about a place.
fn line_about(line: Option<&Vec<u8>>, at: usize) -> String {
    let Some(line) = line else {
        return "no such line".to_string();
    };
    let from = at.saturating_sub(IN_FRONT);
    let shown = &line[from..line.len().min(from + SHOWN_CHARACTERS)];
    let dots = |cut| if cut { ".." } else { "" };
    let (before, behind) = (dots(from > 0), dots(from + shown.len() < line.len()));
    format!("\"{before}{}{behind}\"", shown.escape_ascii())
}
