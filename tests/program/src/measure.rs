//! How long the program takes for a long show, and how much memory, beside the second
//! interpreter's program in a process of its own.

use std::fs;
use std::io::{Read, Write};
use std::process::{Child, Command, Stdio};
use std::thread;
use std::time::{Duration, Instant};

use comparison::convention::Stop;
use comparison::formats::files::patch;
use comparison::formats::kinds::node_kind::{BOTH, LEFT, PASS, RIGHT};
use comparison::formats::kinds::type_kind::{BESIDE, CUE, LEVEL, SEQUENCE};
use comparison::generators::slices::Pace;
use comparison::Random;

use crate::running::delivery::Temporary;
use crate::running::Program;
use crate::streams::shows::Show;

/// The word that makes this executable the second interpreter's program.
pub const SECOND: &str = "--second";

/// So many slices are timed: at 60 a second nearly half an hour.
const TIMED: usize = 100_000;

/// The peak of memory is taken for so many.
const FEW: usize = 10_000;
const MANY: usize = 1_000_000;

/// So many slices of a show bring something, at the most.
const BRINGING: usize = 100;

/// The fastest of so many runs is taken: what else runs on the machine can only slow one.
const RUNS: usize = 3;

/// A stream of so many slices for a patch of these trees.
fn show(tree: &[u8], nodes: &[u8], slices: usize) -> Vec<u8> {
    let mut random = Random::new(1);
    let mut show = Show::of(patch(tree, nodes));
    let little = Pace {
        come: 5,
        cross: 0,
        cross_spent: 50,
        choose: 50,
    };
    for slice in 0..slices {
        let brings = slice % (slices / BRINGING) == 0;
        show.come(&mut random, if brings { little } else { Pace::NOTHING });
    }
    show.stream()
}

/// Eight lanes, in each of them a cue, then a level, then a cue; the sides are swapped.
fn lanes(slices: usize) -> Vec<u8> {
    let lane = [SEQUENCE, CUE, SEQUENCE, LEVEL, CUE];
    let tree = [
        [vec![BESIDE], lane.to_vec()].concat().repeat(7),
        lane.to_vec(),
    ]
    .concat();
    show(&tree, &[BOTH, RIGHT, LEFT], slices)
}

/// The largest type, 128 levels side by side. More than 128 slices cannot bring something, but
/// every slice says of every level that it has not come, or has.
fn levels(slices: usize) -> Vec<u8> {
    let tree = [[BESIDE, LEVEL].repeat(127), vec![LEVEL]].concat();
    show(&tree, &[PASS], slices)
}

fn spawn(program: &Program, input: Stdio) -> Result<Child, String> {
    Command::new(&program.path)
        .args(&program.words)
        .stdin(input)
        .stdout(Stdio::piped())
        .spawn()
        .map_err(|error| format!("{}: {error}", program.path.display()))
}

/// Reads until so many lines have come, or to the end. Answers how many bytes these were.
fn read_lines(output: &mut impl Read, lines: usize) -> u64 {
    let mut chunk = vec![0; 1 << 16];
    let (mut bytes, mut seen) = (0, 0);
    while seen < lines {
        let Ok(length @ 1..) = output.read(&mut chunk) else {
            break;
        };
        bytes += length as u64;
        seen += chunk[..length]
            .iter()
            .filter(|byte| **byte == b'\n')
            .count();
    }
    bytes
}

/// The time from the start of the process to its end, and how many bytes it wrote.
fn time(program: &Program, file: &Temporary) -> Result<(Duration, u64), String> {
    let mut fastest = Duration::MAX;
    let mut bytes = 0;
    for _ in 0..RUNS {
        let begin = Instant::now();
        let mut child = spawn(program, file.input()?)?;
        bytes = read_lines(child.stdout.as_mut().expect("it is a pipe"), usize::MAX);
        child.wait().map_err(|error| error.to_string())?;
        fastest = fastest.min(begin.elapsed());
    }
    Ok((fastest, bytes))
}

/// The most memory that the process had, taken when all lines have come and its input is still
/// open: when it has ended nobody can ask.
fn peak(program: &Program, slices: usize) -> Result<String, String> {
    let stream = lanes(slices);
    let mut child = spawn(program, Stdio::piped())?;
    let mut input = child.stdin.take().expect("it is a pipe");
    let writer = thread::spawn(move || input.write_all(&stream).map(|()| input));
    read_lines(child.stdout.as_mut().expect("it is a pipe"), slices);
    let file = format!("/proc/{}/status", child.id());
    let status = fs::read_to_string(&file).map_err(|error| format!("{file}: {error}"))?;
    drop(writer.join());
    child.wait().map_err(|error| error.to_string())?;
    let line = status.lines().find_map(|line| line.strip_prefix("VmHWM:"));
    Ok(line.ok_or("no VmHWM")?.trim().to_string())
}

/// The times of both programs.
fn times(program: &Program, second: &Program) -> Result<String, Stop> {
    let mut text = format!(
        "{:<36}{:>12}{:>12}{:>11}{:>11}\n",
        "", "bytes in", "bytes out", "program", "second"
    );
    for (name, stream) in [
        ("lanes, most slices bring nothing", lanes(TIMED)),
        ("128 levels", levels(TIMED)),
    ] {
        let file = Temporary::holding(&stream).map_err(Stop::Unusable)?;
        let (ours, bytes) = time(program, &file).map_err(Stop::Unusable)?;
        let (theirs, second_bytes) = time(second, &file).map_err(Stop::Unusable)?;
        if bytes != second_bytes {
            return Err(Stop::Difference(format!(
                "{name}: {bytes} bytes come out, and {second_bytes}"
            )));
        }
        let seconds = |time: Duration| format!("{:.3} s", time.as_secs_f64());
        let (length, ours, theirs) = (stream.len(), seconds(ours), seconds(theirs));
        text += &format!("{name:<36}{length:>12}{bytes:>12}{ours:>11}{theirs:>11}\n");
    }
    Ok(text)
}

/// The times and the memory.
pub fn table(program: &Program) -> Result<String, Stop> {
    let this = std::env::current_exe().map_err(|error| Stop::Unusable(error.to_string()))?;
    let mut second = Program::at(this);
    second.words.push(SECOND.to_string());
    let mut text = format!("{TIMED} slices, from a file to a pipe; the fastest of {RUNS} runs\n");
    text += &times(program, &second)?;
    text += "most memory, the lanes\n";
    for slices in [FEW, MANY] {
        let most = peak(program, slices).map_err(Stop::Unusable)?;
        text += &format!("{slices:>9} slices: {most}\n");
    }
    Ok(text)
}
