//! What the programs in Rust do alike, as `examples/shared/program.h` has it for those in C: the
//! words of the command line, messages and the exit status.
//!
//! Answers go to standard output, messages to the error stream. The status is 0 if all is done; 1
//! for a difference or a missed goal; 2 for words or files that cannot be used, and for an answer
//! that cannot be written.

use std::ffi::OsString;
use std::fmt;
use std::io::{self, Write};
use std::process::ExitCode;
use std::str::FromStr;

mod streams;
pub mod trial;

/// Why a program does not end with status 0.
#[derive(Debug)]
pub enum Stop {
    /// A difference was found, or a goal was missed. The text is the end of the answer.
    Difference(String),
    /// The program does not take these words.
    Words,
    /// A word, a file or a stream cannot be used.
    Unusable(String),
}

impl Stop {
    /// Says in front of a difference where it was found.
    pub fn found_at(self, place: &str) -> Self {
        match self {
            Stop::Difference(text) => Stop::Difference(format!("{place}: {text}")),
            other => other,
        }
    }
}

/// Standard output, for `write!` and `writeln!`. What cannot be written stops the program.
#[derive(Clone, Copy, Debug)]
pub struct Output;

impl Output {
    /// What `write!` and `writeln!` call.
    pub fn write_fmt(self, text: fmt::Arguments) -> Result<(), Stop> {
        io::stdout().write_fmt(text).map_err(unwritten)
    }

    fn flush(self) -> Result<(), Stop> {
        io::stdout().flush().map_err(unwritten)
    }
}

fn unwritten(error: io::Error) -> Stop {
    Stop::Unusable(format!("standard output cannot be written: {error}"))
}

/// Reads a word that is a number.
pub fn number<Number: FromStr>(word: &str) -> Result<Number, Stop> {
    let unusable = |_| Stop::Unusable(format!("no number that can be used: {word}"));
    word.parse().map_err(unusable)
}

/// The end of an answer: what should have been met and was not is a difference.
pub fn end_with_gaps(gaps: &[String]) -> Result<(), Stop> {
    if gaps.is_empty() {
        Ok(())
    } else {
        Err(Stop::Difference(gaps.join("\n")))
    }
}

/// Runs a program and answers its exit status. The help begins with the program's name and its
/// words, on a line of their own; what the program does follows.
pub fn run(help: &str, program: fn(&[&str]) -> Result<(), Stop>) -> ExitCode {
    let answered = answer(help, program);
    let written = match &answered {
        Err(Stop::Difference(text)) => writeln!(Output, "{text}"),
        _ => Ok(()),
    };
    let message = match written.and_then(|()| Output.flush()).and(answered) {
        Ok(()) => return ExitCode::SUCCESS,
        Err(Stop::Difference(_)) => return ExitCode::from(1),
        Err(Stop::Words) => {
            let words = help.lines().next().unwrap_or_default();
            format!("the words are: {words} (--help says more)")
        }
        Err(Stop::Unusable(text)) => text,
    };
    let name = help.split_whitespace().next().unwrap_or_default();
    // If this cannot be written either, the status alone tells it.
    let _ = writeln!(io::stderr(), "{name}: {message}");
    ExitCode::from(2)
}

fn answer(help: &str, program: fn(&[&str]) -> Result<(), Stop>) -> Result<(), Stop> {
    if streams::were_closed() {
        let text = "standard output or the error stream is closed";
        return Err(Stop::Unusable(text.to_string()));
    }
    let words: Vec<String> = std::env::args_os()
        .skip(1)
        .map(OsString::into_string)
        .collect::<Result<_, _>>()
        .map_err(|word| Stop::Unusable(format!("a word that is no text: {word:?}")))?;
    let words: Vec<&str> = words.iter().map(String::as_str).collect();
    if words.contains(&"--help") {
        write!(Output, "{help}")
    } else {
        program(&words)
    }
}
