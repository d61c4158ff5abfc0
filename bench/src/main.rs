//! The program `bench`: how fast the library is beside the second interpreter.

mod feeds;
mod goals;
mod longest;
mod measured;
mod nodes;
mod patches;
mod rows;
mod streams;
mod table;
mod timing;

use std::num::{NonZeroU64, NonZeroUsize};
use std::process::ExitCode;

use comparison::convention::{self, number, Output, Stop};
use measured::{Instructions, Measured};
use rows::{Lent, Row, Side};

const HELP: &str = "\
bench ([--runs N] [--instructions FILE] | --count N)

Times the library beside the second interpreter, call by call, and says which goals are met.

  --runs N             times everything so many times, and judges by the median; 1 without this word
  --instructions FILE  takes instruction counts from a file: for each row a line with the library's
                       and the second interpreter's
  --count N            makes every call so many times, library and then second interpreter, row by
                       row, and prints each row's call; bench/instructions.sh and bench/branches.sh
                       count what that executes

Status: 0 all goals are met, 1 one is missed, or the answers differ, 2 the words or the file cannot
be used, or the answer cannot be written.
";

fn counts(file: &str) -> Result<Vec<Instructions>, String> {
    let text = std::fs::read_to_string(file).map_err(|error| format!("{file}: {error}"))?;
    let pair = |line: &str| {
        let (library, second) = line.split_once(' ')?;
        Some((library.parse().ok()?, second.parse().ok()?))
    };
    text.lines()
        .map(|line| pair(line).ok_or_else(|| format!("{file}: no two counts: {line}")))
        .collect()
}

/// Every row, if the answers are as they should be and there are as many counts.
fn sound_rows(instructions: &[Instructions]) -> Result<Vec<Row>, Stop> {
    let rows = rows::all();
    if !instructions.is_empty() && instructions.len() != rows.len() {
        let (counts, rows) = (instructions.len(), rows.len());
        return Err(Stop::Unusable(format!("{counts} counts for {rows} rows")));
    }
    if let Some(row) = rows.iter().find(|row| !timing::is_sound(row)) {
        return Err(Stop::Difference(format!(
            "{:?}, {}: the answers differ, or are not those of its group",
            row.operation, row.name
        )));
    }
    Ok(rows)
}

/// Prints the table. A missed goal is a difference.
fn print_table(runs: usize, instructions: &[Instructions]) -> Result<(), Stop> {
    let rows = sound_rows(instructions)?;
    writeln!(Output, "{}", table::heading(runs))?;
    let runs: Vec<Vec<Measured>> = (0..runs)
        .map(|_| measured::in_run(&rows, &timing::time(&rows), instructions))
        .collect();
    let verdict = goals::judge(&runs);
    writeln!(Output, "{}\n{}", table::lines(&runs), table::below(&runs))?;
    write!(Output, "{}", verdict.text)?;
    if verdict.met {
        Ok(())
    } else {
        Err(Stop::Difference("a goal is missed".to_string()))
    }
}

fn repeat_all(times: u64) -> Result<(), Stop> {
    let mut lent = Lent::holding(0);
    for row in rows::all() {
        timing::wosthile_bench_repeat(&row, Side::Library, &mut lent, times);
        timing::wosthile_bench_repeat(&row, Side::Second, &mut lent, times);
        writeln!(Output, "{:?}, {}", row.operation, row.name)?;
    }
    Ok(())
}

fn run(words: &[&str]) -> Result<(), Stop> {
    if let ["--count", times] = words {
        return repeat_all(number::<NonZeroU64>(times)?.get());
    }
    let (runs, words) = match words {
        ["--runs", runs, words @ ..] => (number::<NonZeroUsize>(runs)?.get(), words),
        _ => (1, words),
    };
    match words {
        [] => print_table(runs, &[]),
        ["--instructions", file] => print_table(runs, &counts(file).map_err(Stop::Unusable)?),
        _ => Err(Stop::Words),
    }
}

fn main() -> ExitCode {
    convention::run(HELP, run)
}
