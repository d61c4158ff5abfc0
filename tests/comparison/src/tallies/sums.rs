//! The sums of counts in runs and in joins, counted: what they are made of, and how large they are.

use std::fmt;

use crate::calls::counts::Counts;
use crate::formats::fault;
use crate::formats::files::contents;
use crate::formats::preorder::{arrivals, crossed_arrivals};
use crate::tallies::arrivals::{range, RANGES};
use crate::tallies::shares::{Share, SHARES};

/// The counts of a run under way.
#[derive(Clone, Copy, Debug, Default)]
pub struct Sums {
    counts: Counts,
    /// The accepted feeds in which something came, and those in which something was sent.
    arriving: usize,
    sending: usize,
    /// Whether a slice with arrivals was refused since something came last, and whether one was
    /// between two feeds in which something came, by [`refusal`].
    refused: [bool; REFUSALS],
    between: [bool; REFUSALS],
}

/// Slices are refused for a fault, with 20, and with 31.
const REFUSALS: usize = 3;

/// Which of them it is.
fn refusal(number: u32) -> usize {
    match number {
        fault::NO_ROOM => 1,
        fault::TOTAL_TOO_LARGE => 2,
        _ => 0,
    }
}

impl Sums {
    /// After an accepted feed.
    pub fn accept(&mut self, counts: Counts) {
        self.counts = self.counts + counts;
        self.sending += usize::from(counts.sent > 0);
        if counts.arrived > 0 {
            for (between, refused) in self.between.iter_mut().zip(self.refused) {
                *between |= refused;
            }
            self.refused = [false; REFUSALS];
            self.arriving += 1;
        }
    }

    /// After a refused feed.
    pub fn refuse(&mut self, number: u32, slice: &[u8]) {
        if self.arriving > 0 && arrivals(contents(slice)) > 0 {
            self.refused[refusal(number)] = true;
        }
    }
}

/// How the arrivals of a join are shared between its slices.
const JOINS: [&str; 4] = [
    "nothing came",
    "something came in the first alone",
    "something came in the second alone",
    "something came in both",
];

/// The columns of the table of sums.
const SUMS: [&str; 3] = ["of joins", "arrived", "sent"];

/// What was met in runs and in accepted calls of Join.
#[derive(Clone, Debug, Default)]
pub struct SumTally {
    ranges: [[u64; SUMS.len()]; RANGES.len()],
    /// Runs, by what arrived and what was sent in all of their feeds.
    shares: [u64; SHARES.len()],
    several_arriving: u64,
    several_sending: u64,
    between: [u64; REFUSALS],
    /// Feeds of streams cut anew whose counts are the sums of several.
    summed: u64,
    joins: [u64; JOINS.len()],
    /// Joins whose second slice crosses a part of which something came in the first.
    crossing: u64,
}

impl SumTally {
    /// Counts a run that demand 3 was held to.
    pub fn add_run(&mut self, sums: &Sums) -> Result<(), String> {
        self.add_sum(1, sums.counts.arrived)?;
        self.add_sum(2, sums.counts.sent)?;
        self.shares[Share::of(sums.counts) as usize] += 1;
        self.several_arriving += u64::from(sums.arriving > 1);
        self.several_sending += u64::from(sums.sending > 1);
        for (count, between) in self.between.iter_mut().zip(sums.between) {
            *count += u64::from(between);
        }
        Ok(())
    }

    /// Counts a stream that was cut anew, by its feeds with the arrivals of several slices.
    pub fn add_recut(&mut self, summed: usize) {
        self.summed += summed as u64;
    }

    /// Counts a join, by its slices, what Join wrote, and the arrivals of the two.
    pub fn add_join(
        &mut self,
        slices: &[Vec<u8>],
        joined: &[u8],
        [first, second]: [u32; 2],
    ) -> Result<(), String> {
        self.add_sum(0, first + second)?;
        self.joins[usize::from(first > 0) + 2 * usize::from(second > 0)] += 1;
        let crossed = |slice: &[u8]| crossed_arrivals(contents(slice));
        let before: u32 = slices.iter().map(|slice| crossed(slice)).sum();
        self.crossing += u64::from(crossed(joined) > before);
        Ok(())
    }

    fn add_sum(&mut self, column: usize, sum: u32) -> Result<(), String> {
        let row = range(sum).ok_or_else(|| format!("{sum} arrivals in a stream"))?;
        self.ranges[row][column] += 1;
        Ok(())
    }

    /// How many joins and runs have added counts.
    pub fn told(&self) -> String {
        format!(
            "{} joins added the arrivals of their slices, {} of them arrivals of both; in {} runs the \
             counts are sums of several feeds",
            self.joins.iter().sum::<u64>(),
            self.joins[3],
            self.several_arriving
        )
    }

    fn named(&self) -> [(u64, &'static str); 7] {
        let [by_fault, without_room, by_total] = self.between;
        [
            (
                self.several_arriving,
                "runs in which something came in several feeds",
            ),
            (
                by_fault,
                "runs in which a slice with arrivals was refused for a fault between two such feeds",
            ),
            (
                without_room,
                "runs in which a slice with arrivals was refused with 20 between two such feeds",
            ),
            (
                by_total,
                "runs in which a slice with arrivals was refused with 31 between two such feeds",
            ),
            (
                self.several_sending,
                "runs in which something was sent in several feeds",
            ),
            (
                self.summed,
                "feeds of streams cut anew had the arrivals of several slices",
            ),
            (
                self.crossing,
                "joins crossed a part of which something had come before",
            ),
        ]
    }

    /// What a long comparison should have met and did not.
    pub fn gaps(&self) -> Vec<String> {
        let mut gaps = Vec::new();
        for ((_, _, name), counts) in RANGES.iter().zip(self.ranges) {
            for (sums, count) in SUMS.iter().zip(counts) {
                if count == 0 {
                    gaps.push(format!("no sum, {sums}, is {name}"));
                }
            }
        }
        let shares = SHARES.iter().zip(self.shares);
        let joins = JOINS.iter().zip(self.joins);
        let missing = shares.filter(|(_, count)| *count == 0);
        gaps.extend(missing.map(|(name, _)| format!("no run in which {name}")));
        let missing = joins.filter(|(_, count)| *count == 0);
        gaps.extend(missing.map(|(name, _)| format!("no join in which {name}")));
        let missing = self.named().into_iter().filter(|(count, _)| *count == 0);
        gaps.extend(missing.map(|(_, name)| format!("no {name}")));
        gaps
    }
}

impl fmt::Display for SumTally {
    fn fmt(&self, out: &mut fmt::Formatter<'_>) -> fmt::Result {
        write!(out, "{:<35}", "sums of joins and of whole runs")?;
        for sums in SUMS {
            write!(out, "{sums:>15}")?;
        }
        for ((_, _, name), counts) in RANGES.iter().zip(self.ranges) {
            write!(out, "\n{name:<35}")?;
            for count in counts {
                write!(out, "{count:>15}")?;
            }
        }
        writeln!(out)?;
        for (name, count) in SHARES.iter().zip(self.shares) {
            writeln!(out, "{count:>9} runs in which {name}")?;
        }
        for (name, count) in JOINS.iter().zip(self.joins) {
            writeln!(out, "{count:>9} joins in which {name}")?;
        }
        for (count, name) in self.named() {
            writeln!(out, "{count:>9} {name}")?;
        }
        Ok(())
    }
}
