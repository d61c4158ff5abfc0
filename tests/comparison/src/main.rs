//! The program `compare`: the library beside the second interpreter.

use std::num::NonZeroU64;
use std::process::ExitCode;
use std::time::{Duration, Instant};

use comparison::calls::library;
use comparison::convention::{self, number, Output, Stop};
use comparison::formats::fault;
use comparison::{
    compare, hold_joined, limits, Call, Calls, Operation, OtherSlices, Random, Runs, Splits, Tally,
};

const HELP: &str = "\
compare (--calls N | --seconds N) [--seed S]

Compares the library with the second interpreter, in single calls and, after every hundred of them,
in a run of feeds. What Longest wrote is held to other slices of its type, what Join wrote to the
arrivals of its two slices, and some of what Feed wrote to feeds of the same slice in pieces. Prints
what was met, or the first difference.

  --calls N    makes so many calls
  --seconds N  goes on for so long
  --seed S     the number that the calls are drawn by; 1 without this word

Status: 0 no difference, 1 a difference, or the calls did not meet what they should, 2 the words or
the files cannot be used, or the answer cannot be written.
";

/// After so many calls there is a run.
const CALLS_PER_RUN: u64 = 100;

/// How long to go on.
enum Extent {
    Calls(u64),
    Time(Duration),
}

struct Options {
    extent: Extent,
    seed: u64,
}

fn options(words: &[&str]) -> Result<Options, Stop> {
    let mut extent = None;
    let mut seed = 1;
    for pair in words.chunks(2) {
        match pair {
            ["--calls", calls] => {
                extent = Some(Extent::Calls(number::<NonZeroU64>(calls)?.get()));
            }
            ["--seconds", seconds] => {
                extent = Some(Extent::Time(Duration::from_secs(number(seconds)?)));
            }
            ["--seed", word] => seed = number(word)?,
            _ => return Err(Stop::Words),
        }
    }
    Ok(Options {
        extent: extent.ok_or(Stop::Words)?,
        seed,
    })
}

/// What draws the slices that answers are held to.
struct Others {
    slices: OtherSlices,
    splits: Splits,
}

/// Compares a call and counts it. What Longest wrote is held to other slices of its type, what Join
/// wrote to the arrivals of its two slices, and what Feed wrote to feeds of its slice in pieces.
fn compare_call(
    call: &Call,
    others: &mut Others,
    noise: &mut Random,
    tally: &mut Tally,
) -> Result<(), String> {
    let agreed = compare(call, noise)?;
    tally.add(call, &agreed)?;
    let told = |text: String| format!("{text}\n{call}");
    match (call.operation, agreed.answer.number) {
        (Operation::Longest, fault::ACCEPTED) => {
            let tried =
                (others.slices.try_against(&call.files[0], &agreed.files[0])).map_err(told)?;
            tally.longest.add_tried(tried);
        }
        (Operation::Join, fault::ACCEPTED) => {
            let joined = &agreed.files[0];
            let arrivals = hold_joined(&call.files, joined, noise).map_err(told)?;
            (tally.sums.add_join(&call.files[1..], joined, arrivals)).map_err(told)?;
        }
        (Operation::Feed, fault::ACCEPTED) => {
            let split = (others.splits.try_against(&call.files, agreed, noise)).map_err(told)?;
            if let Some(split) = split {
                tally.add_split(&split);
            }
        }
        _ => {}
    }
    Ok(())
}

fn run(options: &Options, noise: &mut Random, tally: &mut Tally) -> Result<(), String> {
    let begin = Instant::now();
    let mut runs = Runs::new(options.seed.wrapping_add(1 << 32));
    let mut others = Others {
        slices: OtherSlices::new(options.seed.wrapping_add(2 << 32)),
        splits: Splits::new(options.seed.wrapping_add(3 << 32)),
    };
    for (number, call) in (1_u64..).zip(Calls::new(options.seed)) {
        compare_call(&call, &mut others, noise, tally)
            .map_err(|text| format!("seed {}, call {number}: {text}", options.seed))?;
        if number % CALLS_PER_RUN == 0 {
            runs.compare_run(noise, tally).map_err(|text| {
                let run = number / CALLS_PER_RUN;
                format!("seed {}, run {run}: {text}", options.seed)
            })?;
        }
        let over = match options.extent {
            Extent::Calls(calls) => number >= calls,
            Extent::Time(limit) => number % 256 == 0 && begin.elapsed() >= limit,
        };
        if over {
            break;
        }
    }
    Ok(())
}

fn compare_all(words: &[&str]) -> Result<(), Stop> {
    let options = options(words)?;
    if library::abi() != library::ABI {
        let text = format!("the archive is of ABI {}", library::abi());
        return Err(Stop::Unusable(text));
    }
    // What is in the buffers and beside everything comes from a generator of its own: it has
    // no say in which calls are made.
    let mut noise = Random::new(!options.seed);
    limits::compare_stored(&mut noise)?;
    let mut tally = Tally::default();
    run(&options, &mut noise, &mut tally).map_err(Stop::Difference)?;
    writeln!(
        Output,
        "case 10: what the program has stored is what both answer\n"
    )?;
    writeln!(Output, "{tally}")?;
    let [alone, in_runs] = tally.choices();
    writeln!(
        Output,
        "{} choices were made, {in_runs} of them in runs",
        alone + in_runs
    )?;
    writeln!(Output, "{}", tally.waits.told())?;
    writeln!(Output, "{}", tally.sums.told())?;
    writeln!(Output, "{}", tally.totals.told())?;
    writeln!(
        Output,
        "{} calls of Longest: {}",
        tally.calls(Operation::Longest),
        tally.longest.told()
    )?;
    writeln!(
        Output,
        "{} calls and {} runs with seed {}: no difference",
        tally.total(),
        tally.runs.total(),
        options.seed
    )?;
    convention::end_with_gaps(&tally.gaps())
}

fn main() -> ExitCode {
    convention::run(HELP, compare_all)
}
