//! The program as a process: it is started, drained while it runs, and ended if it does not end.

use std::io::Read;
use std::path::PathBuf;
use std::process::{Child, ChildStdin, Command, ExitStatus, Stdio};
use std::sync::mpsc::{channel, Receiver, RecvTimeoutError, Sender};
use std::thread;
use std::time::{Duration, Instant};

/// What has to come at once has so long: a line whose slice is there, the end after a refused
/// patch.
const AT_ONCE: Duration = Duration::from_secs(5);

/// So long may the program take for the longest stream, on a machine that has much else to do.
const TO_THE_END: Duration = Duration::from_secs(60);

/// The program to be run.
#[derive(Clone, Debug)]
pub struct Program {
    pub path: PathBuf,
    /// The program of document 01 takes no words.
    pub words: Vec<String>,
    /// How long to wait for what has to come at once, and for the end.
    pub at_once: Duration,
    pub to_the_end: Duration,
}

impl Program {
    /// The program at this path.
    pub fn at(path: impl Into<PathBuf>) -> Self {
        Program {
            path: path.into(),
            words: Vec::new(),
            at_once: AT_ONCE,
            to_the_end: TO_THE_END,
        }
    }
}

/// How a process ended, and all that it wrote.
#[derive(Clone, Debug)]
pub struct Ended {
    pub output: Vec<u8>,
    /// What was wrong, its output aside.
    pub faults: Vec<String>,
}

enum Event {
    Output(Vec<u8>),
    Errors(Vec<u8>),
}

/// A process under way. It is ended when this is dropped.
#[derive(Debug)]
pub struct Running {
    child: Child,
    events: Receiver<Event>,
    to_the_end: Duration,
    output: Vec<u8>,
    faults: Vec<String>,
}

impl Running {
    /// Starts the program. What it writes is read on a thread of its own, so that it never waits.
    pub fn start(program: &Program, input: Stdio) -> Result<Self, String> {
        let mut child = Command::new(&program.path)
            .args(&program.words)
            .stdin(input)
            .stdout(Stdio::piped())
            .stderr(Stdio::piped())
            .spawn()
            .map_err(|error| format!("{} does not start: {error}", program.path.display()))?;
        let output = child.stdout.take().expect("it is a pipe");
        let errors = child.stderr.take().expect("it is a pipe");
        let (sender, events) = channel();
        thread::spawn(move || drain(output, errors, &sender));
        Ok(Running {
            child,
            events,
            to_the_end: program.to_the_end,
            output: Vec::new(),
            faults: Vec::new(),
        })
    }

    /// The end of the pipe that is written to, if standard input is one.
    pub fn input(&mut self) -> ChildStdin {
        self.child.stdin.take().expect("standard input is a pipe")
    }

    /// The process's number.
    pub fn id(&self) -> u32 {
        self.child.id()
    }

    /// Remembers what was wrong.
    pub fn fault(&mut self, text: String) {
        self.faults.push(text);
    }

    /// Waits until so many bytes were written in all. Says whether they came in time.
    pub fn wait_for(&mut self, length: usize, within: Duration) -> bool {
        let deadline = Instant::now() + within;
        while self.output.len() < length {
            if self.next_event(deadline).is_err() {
                return false;
            }
        }
        true
    }

    /// Waits until the process has closed its output. Says whether it did in time.
    pub fn wait_for_close(&mut self, within: Duration) -> bool {
        let deadline = Instant::now() + within;
        loop {
            match self.next_event(deadline) {
                Ok(()) => {}
                Err(RecvTimeoutError::Disconnected) => return true,
                Err(RecvTimeoutError::Timeout) => return false,
            }
        }
    }

    fn next_event(&mut self, deadline: Instant) -> Result<(), RecvTimeoutError> {
        let left = deadline.saturating_duration_since(Instant::now());
        match self.events.recv_timeout(left)? {
            Event::Output(bytes) => self.output.extend(bytes),
            Event::Errors(bytes) if bytes.is_empty() => {}
            Event::Errors(bytes) => {
                let text = bytes.escape_ascii();
                self.fault(format!("it wrote to standard error: {text}"));
            }
        }
        Ok(())
    }

    /// Waits for the end, and answers what was written and what was wrong.
    pub fn end(mut self) -> Ended {
        let deadline = Instant::now() + self.to_the_end;
        let closed = self.wait_for_close(self.to_the_end);
        match self.wait_for_status(deadline) {
            Some(status) if closed && status.success() => {}
            Some(status) if closed => self.fault(format!("it ended with {status}")),
            _ => self.fault(format!("it had not ended after {:?}", self.to_the_end)),
        }
        Ended {
            output: std::mem::take(&mut self.output),
            faults: std::mem::take(&mut self.faults),
        }
    }

    /// The status, as soon as there is one: a process ends a little after it has closed its output.
    fn wait_for_status(&mut self, deadline: Instant) -> Option<ExitStatus> {
        loop {
            match self.child.try_wait() {
                Ok(None) if Instant::now() < deadline => thread::sleep(Duration::from_micros(50)),
                Ok(status) => return status,
                Err(_) => return None,
            }
        }
    }
}

impl Drop for Running {
    /// A process that has ended is not touched by this.
    fn drop(&mut self) {
        let _ = self.child.kill();
        let _ = self.child.wait();
    }
}

/// Hands on what is written, as it comes, and at the end what was written to standard error.
fn drain(mut output: impl Read, mut errors: impl Read, sender: &Sender<Event>) {
    let mut chunk = vec![0; 1 << 16];
    while let Ok(length @ 1..) = output.read(&mut chunk) {
        if sender
            .send(Event::Output(chunk[..length].to_vec()))
            .is_err()
        {
            return;
        }
    }
    let mut text = Vec::new();
    let _ = errors.read_to_end(&mut text);
    let _ = sender.send(Event::Errors(text));
}
