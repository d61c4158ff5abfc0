//! What was measured of a row, and what follows from it.

use std::fmt;

use crate::rows::{Group, Row};
use crate::timing::Times;

/// Instructions per call, library and second interpreter.
pub type Instructions = (u64, u64);

/// A row with what was measured of it in one run.
pub struct Measured<'a> {
    pub row: &'a Row,
    pub times: Times,
    pub instructions: Option<Instructions>,
}

/// What a goal is judged by. Counts do not depend on what else the machine does.
#[derive(Clone, Copy, Debug, PartialEq, Eq)]
pub enum Cost {
    Time,
    Instructions,
}

impl fmt::Display for Cost {
    fn fmt(&self, out: &mut fmt::Formatter<'_>) -> fmt::Result {
        out.write_str(match self {
            Cost::Time => "time",
            Cost::Instructions => "instructions",
        })
    }
}

impl Measured<'_> {
    /// What a call costs, library and second interpreter, if it was measured.
    fn costs(&self, cost: Cost) -> Option<(f64, f64)> {
        match cost {
            Cost::Time => Some((self.times.library, self.times.second)),
            Cost::Instructions => self
                .instructions
                .map(|(library, second)| (library as f64, second as f64)),
        }
    }

    /// What a call of the library costs.
    pub fn library(&self, cost: Cost) -> Option<f64> {
        self.costs(cost).map(|(library, _)| library)
    }

    /// What a call of the second interpreter costs.
    pub fn second(&self, cost: Cost) -> Option<f64> {
        self.costs(cost).map(|(_, second)| second)
    }

    /// How many times as much the second interpreter costs.
    pub fn ratio(&self, cost: Cost) -> Option<f64> {
        self.costs(cost).map(|(library, second)| second / library)
    }

    pub fn is_accepted(&self) -> bool {
        self.row.group != Group::Refused
    }

    /// What a byte handed in costs the library. Only an accepted call reads them all.
    pub fn per_byte(&self, cost: Cost) -> Option<f64> {
        let bytes = self.row.input_bytes() as f64;
        self.library(cost)
            .filter(|_| self.is_accepted())
            .map(|library| library / bytes)
    }

    /// How many times as long the library takes as `memcpy` of the bytes handed in.
    pub fn times_memcpy(&self) -> Option<f64> {
        self.is_accepted()
            .then(|| self.times.library / self.times.memcpy)
    }

    pub fn name(&self) -> String {
        format!("{:?}, {}", self.row.operation, self.row.name)
    }
}

/// The middle one of these numbers, or what lies between the middle two; none of no numbers.
pub fn median(numbers: impl IntoIterator<Item = f64>) -> Option<f64> {
    let mut sorted: Vec<f64> = numbers.into_iter().collect();
    sorted.sort_by(f64::total_cmp);
    let last = sorted.len().checked_sub(1)?;
    Some((sorted[last / 2] + sorted[last.div_ceil(2)]) / 2.0)
}

/// The rows with their times in one run, and with their counts if there are any.
pub fn in_run<'a>(
    rows: &'a [Row],
    times: &[Times],
    instructions: &[Instructions],
) -> Vec<Measured<'a>> {
    rows.iter()
        .zip(times)
        .enumerate()
        .map(|(index, (row, times))| Measured {
            row,
            times: *times,
            instructions: instructions.get(index).copied(),
        })
        .collect()
}

/// A figure of a row in the median of the runs.
pub fn in_median(
    runs: &[Vec<Measured>],
    row: usize,
    figure: fn(&Measured) -> Option<f64>,
) -> Option<f64> {
    median(runs.iter().filter_map(|run| figure(&run[row])))
}
