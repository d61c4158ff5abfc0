//! How a stream comes to the program's standard input.

use std::fs::{self, File};
use std::io::Write;
use std::iter::repeat;
use std::path::PathBuf;
use std::process::{ChildStdin, Stdio};
use std::sync::mpsc::channel;
use std::thread;
use std::time::{Duration, Instant};

use crate::formats::{line_ends, refuses_patch, Parts};
use crate::running::process::{Ended, Program, Running};

/// How the bytes come.
#[derive(Clone, Debug, PartialEq, Eq)]
pub enum Delivery {
    /// Through a pipe, as fast as they are read.
    Pipe,
    /// Through a pipe, in pieces of these lengths; each is read before the next one is written.
    Pieces(Vec<usize>),
    /// From a file.
    File,
    /// From /dev/null: there are none.
    Null,
    /// Through a pipe that stays open: each line is awaited before the next file is written.
    Open,
}

/// So long is waited for a piece to be read.
const READ_WITHIN: Duration = Duration::from_millis(20);

impl Delivery {
    /// Runs the program on a stream. `expected` says which lines are to be awaited.
    pub fn run(&self, program: &Program, stream: &[u8], expected: &[u8]) -> Result<Ended, String> {
        match self {
            Delivery::Pipe => through_pipe(program, stream, &[stream.len()]),
            Delivery::Pieces(lengths) => through_pipe(program, stream, lengths),
            Delivery::File => from_file(program, stream),
            Delivery::Null => Ok(Running::start(program, Stdio::null())?.end()),
            Delivery::Open => kept_open(program, stream, expected),
        }
    }
}

/// A program that has stopped reads no more: that a pipe is closed is no fault, the lines tell.
fn write(input: &mut ChildStdin, bytes: &[u8]) -> bool {
    input.write_all(bytes).is_ok()
}

fn through_pipe(program: &Program, stream: &[u8], lengths: &[usize]) -> Result<Ended, String> {
    let mut running = Running::start(program, Stdio::piped())?;
    let mut input = running.input();
    let id = running.id();
    Ok(thread::scope(|scope| {
        scope.spawn(move || {
            let mut rest = stream;
            for length in lengths {
                let (piece, others) = rest.split_at(*length);
                if !write(&mut input, piece) {
                    return;
                }
                rest = others;
                if !rest.is_empty() {
                    wait_until_read(id);
                }
            }
        });
        running.end()
    }))
}

/// Waits until the process sleeps: it has read all that there is, and asks for more. Without this
/// several pieces might come to it in one read.
fn wait_until_read(id: u32) {
    let deadline = Instant::now() + READ_WITHIN;
    let file = format!("/proc/{id}/stat");
    while Instant::now() < deadline {
        // The state is behind the name, which is in parentheses.
        let text = fs::read_to_string(&file).unwrap_or_default();
        let state = text.rsplit(") ").next().unwrap_or_default();
        if !state.starts_with(['R', 'D']) {
            return;
        }
        thread::yield_now();
    }
}

/// A file with these bytes; removed when dropped.
#[derive(Debug)]
pub struct Temporary {
    path: PathBuf,
}

impl Temporary {
    /// Writes the file.
    pub fn holding(bytes: &[u8]) -> Result<Self, String> {
        let name = format!(
            "compare_program_{}_{:?}",
            std::process::id(),
            thread::current().id()
        );
        let path = std::env::temp_dir().join(name);
        fs::write(&path, bytes).map_err(|error| format!("{}: {error}", path.display()))?;
        Ok(Temporary { path })
    }

    /// The file as an input, from its first byte.
    pub fn input(&self) -> Result<Stdio, String> {
        let file = File::open(&self.path);
        file.map(Stdio::from)
            .map_err(|error| format!("{}: {error}", self.path.display()))
    }
}

impl Drop for Temporary {
    fn drop(&mut self) {
        let _ = fs::remove_file(&self.path);
    }
}

fn from_file(program: &Program, stream: &[u8]) -> Result<Ended, String> {
    let file = Temporary::holding(stream)?;
    Ok(Running::start(program, file.input()?)?.end())
}

/// Who pipes slices to the program sees a line as soon as its slice is written; and after a refused
/// patch the program stops, though more could come.
fn kept_open(program: &Program, stream: &[u8], expected: &[u8]) -> Result<Ended, String> {
    let mut running = Running::start(program, Stdio::piped())?;
    let mut input = running.input();
    let (sender, files) = channel::<&[u8]>();
    Ok(thread::scope(|scope| {
        // On a thread of its own: a program that does not read must not hold up who waits for it.
        scope.spawn(move || files.iter().all(|file| write(&mut input, file)));
        for (file, due) in files_and_dues(stream, expected) {
            let _ = sender.send(file);
            if !running.wait_for(due, program.at_once) {
                running.fault("a line was not there, though its file was".to_string());
                break;
            }
        }
        if refuses_patch(expected) && !running.wait_for_close(program.at_once) {
            running.fault("it had not stopped after a refused patch".to_string());
        }
        let _ = sender.send(Parts::new(stream).rest);
        drop(sender);
        running.end()
    }))
}

/// The whole files, each with its length in front, and how many bytes of output are due when it
/// has come: none for an accepted patch, and no more after a refused one.
fn files_and_dues<'a>(stream: &'a [u8], expected: &[u8]) -> Vec<(&'a [u8], usize)> {
    let mut ends = line_ends(expected);
    if !refuses_patch(expected) {
        ends.insert(0, 0);
    }
    let dues = ends.into_iter().chain(repeat(expected.len()));
    let files = Parts::new(stream).files.into_iter();
    files
        .map(|(at, file)| &stream[at..at + 2 + file.len()])
        .zip(dues)
        .collect()
}
