//! What was answered, counted.

use std::fmt;

use crate::calls::call::{Call, Operation};
use crate::calls::comparison::Agreed;
use crate::formats::fault;
use crate::runs::split::Split;
use crate::tallies::arrivals::ArrivalTally;
use crate::tallies::feeds::{FeedTally, Position};
use crate::tallies::longest::LongestTally;
use crate::tallies::patches::PatchTally;
use crate::tallies::runs::RunTally;
use crate::tallies::streams::StreamTally;
use crate::tallies::sums::SumTally;
use crate::tallies::totals::TotalTally;
use crate::tallies::waits::WaitTally;

mod arrivals;
mod cases;
pub(crate) mod feeds;
mod longest;
mod openings;
mod patches;
mod runs;
mod shares;
mod streams;
pub(crate) mod sums;
mod totals;
pub(crate) mod waits;
mod walk;

/// The numbers that the operations can answer.
const NUMBERS: [u32; 15] = [
    fault::ACCEPTED,
    fault::CUT_SHORT,
    fault::UNLISTED,
    fault::LEFT_OVER,
    fault::TYPE_TOO_LARGE,
    fault::TOO_MANY_NODES,
    fault::NOT_NULLABLE,
    fault::WRONG_SHAPE,
    fault::SLICE_CUT_SHORT,
    fault::SLICE_UNLISTED,
    fault::SLICE_LEFT_OVER,
    fault::SLICE_MISPLACED,
    fault::NO_ROOM,
    fault::OUTPUTS_DIFFER,
    fault::TOTAL_TOO_LARGE,
];

/// Fewer calls than this are not judged by what they met: what is seldom, late in a run, might be
/// missed by chance.
const JUDGED_FROM: u64 = 300_000;

/// The least share of accepted calls, in per cent.
const LEAST_ACCEPTED: u64 = 30;

/// Whether the operation can answer this number.
fn is_possible(operation: Operation, number: u32) -> bool {
    match number {
        fault::TOO_MANY_NODES
        | fault::NOT_NULLABLE
        | fault::WRONG_SHAPE
        | fault::OUTPUTS_DIFFER => operation.takes_patch(),
        fault::SLICE_CUT_SHORT
        | fault::SLICE_UNLISTED
        | fault::SLICE_LEFT_OVER
        | fault::SLICE_MISPLACED => operation.takes_slice(),
        fault::NO_ROOM => operation != Operation::Admit,
        fault::TOTAL_TOO_LARGE => operation == Operation::Feed,
        _ => true,
    }
}

/// How often each number was answered by each operation.
#[derive(Clone, Debug, Default)]
pub struct Tally {
    counts: [[u64; NUMBERS.len()]; Operation::ALL.len()],
    complete: u64,
    patches: PatchTally,
    streams: StreamTally,
    /// The accepted feeds, alone and in runs.
    pub feeds: FeedTally,
    /// The slices whose arrivals were counted, alone and in runs.
    pub arrivals: ArrivalTally,
    /// The sums of counts, in joins and in runs.
    pub sums: SumTally,
    /// The totals of patches, alone and in runs.
    pub totals: TotalTally,
    /// The calls of Longest, and what was tried against their answers.
    pub longest: LongestTally,
    /// The runs, whose feeds are not among the calls.
    pub runs: RunTally,
    /// The cues and levels that waited in runs.
    pub waits: WaitTally,
}

impl Tally {
    /// Counts one answer. A number that the operation does not have is an error.
    pub fn add(&mut self, call: &Call, agreed: &Agreed) -> Result<(), String> {
        let (operation, answer) = (call.operation, &agreed.answer);
        let column = NUMBERS
            .iter()
            .position(|number| *number == answer.number && is_possible(operation, *number))
            .ok_or_else(|| format!("{operation:?} answers {}", answer.number))?;
        self.counts[operation as usize][column] += 1;
        self.complete += u64::from(answer.complete);
        self.arrivals.add(call, agreed)?;
        self.totals.add(call, agreed, Position::Alone)?;
        match (operation, answer.number) {
            (Operation::Check, _) => self.patches.add(&call.files[0], answer),
            (Operation::Admit | Operation::Left | Operation::Join, fault::ACCEPTED) => {
                self.streams.add(&call.files);
            }
            (Operation::Feed, fault::ACCEPTED) => {
                self.feeds.add(Position::Alone, &call.files, agreed)?;
            }
            (Operation::Longest, fault::ACCEPTED | fault::NO_ROOM) => {
                self.longest.add(call, agreed)?;
            }
            _ => {}
        }
        Ok(())
    }

    /// Counts a slice of a feed outside runs that was cut into pieces.
    pub fn add_split(&mut self, split: &Split) {
        self.totals.add_split(split, Position::Alone);
    }

    /// All calls of an operation outside runs.
    pub fn calls(&self, operation: Operation) -> u64 {
        self.counts[operation as usize].iter().sum()
    }

    /// All calls outside runs.
    pub fn total(&self) -> u64 {
        self.counts.iter().flatten().sum()
    }

    /// The choices that accepted slices made, in calls of their own and in runs.
    pub fn choices(&self) -> [u64; 2] {
        let alone = self.streams.choices() + self.feeds.choices_alone();
        [alone, self.runs.choices()]
    }

    /// What a comparison of this length should have met and did not.
    pub fn gaps(&self) -> Vec<String> {
        if self.total() < JUDGED_FROM {
            return Vec::new();
        }
        let mut gaps = self.patches.gaps();
        gaps.extend(self.streams.gaps());
        gaps.extend(self.feeds.gaps());
        gaps.extend(self.arrivals.gaps());
        gaps.extend(self.sums.gaps());
        gaps.extend(self.totals.gaps());
        gaps.extend(self.longest.gaps());
        gaps.extend(self.runs.gaps());
        gaps.extend(self.waits.gaps());
        for operation in Operation::ALL {
            let counts = &self.counts[operation as usize];
            if counts[0] * 100 < self.calls(operation) * LEAST_ACCEPTED {
                gaps.push(format!(
                    "{operation:?}: fewer than {LEAST_ACCEPTED} % accepted"
                ));
            }
            for (number, count) in NUMBERS.iter().zip(counts) {
                if is_possible(operation, *number) && *count == 0 {
                    gaps.push(format!("{operation:?}: {number} was never answered"));
                }
            }
        }
        gaps
    }
}

impl fmt::Display for Tally {
    fn fmt(&self, out: &mut fmt::Formatter<'_>) -> fmt::Result {
        write!(out, "{:<10}{:>9}{:>10}", "operation", "calls", "accepted")?;
        for number in NUMBERS {
            write!(out, "{number:>8}")?;
        }
        for operation in Operation::ALL {
            let counts = &self.counts[operation as usize];
            let calls = self.calls(operation);
            let share = 100.0 * counts[0] as f64 / calls.max(1) as f64;
            write!(
                out,
                "\n{:<10}{calls:>9}{share:>8.1} %",
                format!("{operation:?}")
            )?;
            for (number, count) in NUMBERS.iter().zip(counts) {
                if is_possible(operation, *number) {
                    write!(out, "{count:>8}")?;
                } else {
                    write!(out, "{:>8}", "-")?;
                }
            }
        }
        let admitted = self.counts[Operation::Admit as usize][0];
        writeln!(
            out,
            "\nof {admitted} admitted slices {} were complete",
            self.complete
        )?;
        write!(out, "\n{}\n{}", self.streams, self.patches)?;
        write!(out, "\n{}\n{}\n{}", self.feeds, self.longest, self.runs)?;
        write!(out, "\n{}\n{}\n{}", self.waits, self.arrivals, self.sums)?;
        write!(out, "\n{}", self.totals)
    }
}
