//! Whether the goals are met, by the median of the runs.

use comparison::Operation;

use crate::measured::{median, Cost, Measured};
use crate::rows::Group;

/// Every accepted row is to be at least so many times as fast as the second interpreter.
const FASTER: f64 = 2.0;
/// The cost per node at the largest size is to be at most so many times that at a quarter of it.
const FLAT: f64 = 1.5;
/// Every accepted row is to take less than so many microseconds: one per cent of a frame.
const SHORT: f64 = 166.0;
/// A cost is known to about this factor.
const NOISE: f64 = 1.1;

/// A goal, and what it is judged by.
struct Goal {
    text: String,
    costs: &'static [Cost],
    /// What is judged of a row among all rows; nothing if the goal does not speak of it.
    judged: fn(&[Measured], &Measured, Cost) -> Option<f64>,
    misses: fn(f64) -> bool,
}

/// What is said of goals, and whether all of them are met.
pub struct Verdict {
    pub text: String,
    pub met: bool,
}

fn all_goals() -> [Goal; 4] {
    let both = &[Cost::Time, Cost::Instructions];
    [
        Goal {
            text: format!(
                "every accepted row costs the second interpreter at least {FASTER} times as much"
            ),
            costs: both,
            judged: |_, one, cost| one.ratio(cost).filter(|_| one.is_accepted()),
            misses: |ratio| ratio < FASTER,
        },
        Goal {
            text: format!(
                "flat: at the most nodes, 255 of a type or 63 of a patch, a node costs at most \
                 {FLAT} times what it costs at a quarter"
            ),
            costs: both,
            judged: growth,
            misses: |growth| growth > FLAT,
        },
        Goal {
            text: format!(
                "no refusal dearer than the dearest legal row ({NOISE} times, for noise)"
            ),
            costs: both,
            judged: dearness,
            misses: |dearness| dearness > NOISE,
        },
        Goal {
            text: format!(
                "every accepted row takes less than {SHORT} microseconds, one per cent of a frame"
            ),
            costs: &[Cost::Time],
            judged: |_, one, _| one.is_accepted().then(|| one.times.library / 1000.0),
            misses: |microseconds| microseconds >= SHORT,
        },
    ]
}

/// For each goal whether it is met, by time and, if they were counted, by instructions. Below it
/// the rows that miss it in the median, or by time in one of the runs.
pub fn judge(runs: &[Vec<Measured>]) -> Verdict {
    let counted = runs.iter().flatten().all(|one| one.instructions.is_some());
    let mut all = Verdict {
        text: String::new(),
        met: true,
    };
    for goal in all_goals() {
        for cost in goal.costs {
            if *cost == Cost::Time || counted {
                let verdict = goal.judge(runs, *cost);
                all.text += &verdict.text;
                all.met &= verdict.met;
            }
        }
    }
    all
}

/// How a line begins.
fn head(met: bool) -> &'static str {
    if met {
        "met     "
    } else {
        "MISSED  "
    }
}

impl Goal {
    /// The verdict by one cost. Counts are the same in every run, so nothing is said of runs there.
    fn judge(&self, runs: &[Vec<Measured>], cost: Cost) -> Verdict {
        let (mut all_met, mut rows) = (true, String::new());
        for (row, one) in runs[0].iter().enumerate() {
            let in_run = |run: &Vec<Measured>| (self.judged)(run, &run[row], cost);
            let judged: Vec<f64> = runs.iter().filter_map(in_run).collect();
            let missed = judged.iter().filter(|one| (self.misses)(**one)).count();
            let Some(middle) = median(judged).filter(|_| missed > 0) else {
                continue;
            };
            let met = !(self.misses)(middle);
            all_met &= met;
            rows += &format!("          {}{}: {middle:.2}", head(met), one.name());
            if cost == Cost::Time {
                rows += &format!("; missed in {missed} of {} runs", runs.len());
            }
            rows.push('\n');
        }
        Verdict {
            text: format!("{}{}, by {cost}\n{rows}", head(all_met), self.text),
            met: all_met,
        }
    }
}

/// For a growing row at the largest size: how many times as much a node of the tree that grows
/// costs there as in the row of the same operation and series at a quarter.
fn growth(measured: &[Measured], large: &Measured, cost: Cost) -> Option<f64> {
    let Group::Growing {
        series,
        nodes,
        largest,
    } = large.row.group
    else {
        return None;
    };
    let fewer = largest / 4;
    let group = Group::Growing {
        series,
        nodes: fewer,
        largest,
    };
    let quarter = measured.iter().find(|one| {
        nodes == largest && one.row.group == group && one.row.operation == large.row.operation
    })?;
    let times = nodes as f64 / fewer as f64;
    Some(large.library(cost)? / quarter.library(cost)? / times)
}

/// For a refused row: how many times as much it costs as the dearest legal row of its operation.
fn dearness(measured: &[Measured], refused: &Measured, cost: Cost) -> Option<f64> {
    let limit = dearest(measured, refused.row.operation, cost);
    refused
        .library(cost)
        .filter(|_| !refused.is_accepted())
        .map(|library| library / limit)
}

fn dearest(measured: &[Measured], operation: Operation, cost: Cost) -> f64 {
    measured
        .iter()
        .filter(|one| one.row.group == Group::Legal && one.row.operation == operation)
        .filter_map(|one| one.library(cost))
        .fold(0.0, f64::max)
}
