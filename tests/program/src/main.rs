//! The program `compare_program`: the built program beside the second interpreter's.

use std::num::NonZeroU64;
use std::process::ExitCode;

use comparison::convention::{self, number, Output, Stop};
use program::{hold, measure, Program, Streams, Tally};

const HELP: &str = "\
compare_program (--program PATH [--streams N] [--seed S] | --measure PATH | --second)

Compares the program at a path with the second interpreter's, in all that it writes. Prints what was
met, or the first difference.

  --program PATH  the program of document 01
  --streams N     so many streams; 5000 without this word
  --seed S        the number that the streams are drawn by; 1 without this word
  --measure PATH  prints how long the program takes, and how much memory, beside the second one
  --second        is the second interpreter's program, on standard input

Status: 0 no difference, 1 a difference, or the streams did not meet what they should, 2 the words or
the files cannot be used, or the answer cannot be written.
";

/// So many streams take the gate less than half a minute.
const STREAMS: u64 = 5_000;

fn compare(words: &[&str]) -> Result<(), Stop> {
    let (mut program, mut streams, mut seed) = (None, STREAMS, 1);
    for pair in words.chunks(2) {
        match pair {
            ["--program", path] => program = Some(Program::at(path)),
            ["--streams", word] => streams = number::<NonZeroU64>(word)?.get(),
            ["--seed", word] => seed = number(word)?,
            _ => return Err(Stop::Words),
        }
    }
    compare_streams(&program.ok_or(Stop::Words)?, streams, seed)
}

fn compare_streams(program: &Program, streams: u64, seed: u64) -> Result<(), Stop> {
    let mut tally = Tally::default();
    for (number, case) in (1..=streams).zip(Streams::new(seed)) {
        hold(program, &case)
            .and_then(|lines| tally.add(&case, &lines).map_err(Stop::Difference))
            .map_err(|stop| stop.found_at(&format!("seed {seed}, stream {number}")))?;
    }
    writeln!(Output, "{tally}")?;
    let total = tally.total();
    writeln!(Output, "{total} streams with seed {seed}: no difference")?;
    convention::end_with_gaps(&tally.gaps())
}

fn second() -> Result<(), Stop> {
    let (mut input, mut output) = (std::io::stdin().lock(), std::io::stdout().lock());
    second_interpreter::run_program(&mut input, &mut output)
        .map_err(|error| Stop::Unusable(format!("standard input or output: {error}")))
}

fn run(words: &[&str]) -> Result<(), Stop> {
    match words {
        [measure::SECOND] => second(),
        ["--measure", path] => write!(Output, "{}", measure::table(&Program::at(path))?),
        _ => compare(words),
    }
}

fn main() -> ExitCode {
    convention::run(HELP, run)
}
