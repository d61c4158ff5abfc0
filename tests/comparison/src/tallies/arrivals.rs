//! The slices whose arrivals were counted, by how many came and by what a wrong count would take
//! for an arrival, or would not; and the refused calls in whose slice something had come.

use std::fmt;

use crate::calls::call::{Call, Operation};
use crate::calls::comparison::Agreed;
use crate::formats::fault;
use crate::formats::files::{contents, MOST_ARRIVALS};
use crate::formats::kinds::slice_kind::{CROSSED, LEVEL_COME};
use crate::formats::preorder::{
    arrivals, crossed_arrivals, is_arrival, is_choice, slice_kinds, slice_roots,
};
use crate::tallies::is_possible;

/// Where the numbers of arrivals begin and end.
pub const RANGES: [(u32, u32, &str); 6] = [
    (0, 0, "no arrival"),
    (1, 1, "1 arrival"),
    (2, 9, "2 to 9 arrivals"),
    (10, 63, "10 to 63 arrivals"),
    (64, MOST_ARRIVALS - 1, "64 to 127 arrivals"),
    (MOST_ARRIVALS, MOST_ARRIVALS, "128 arrivals, the most"),
];

/// A slice, told by its bytes.
struct Seen {
    kinds: Vec<u8>,
    /// The bytes of the values of the levels that have come.
    values: Vec<[u8; 2]>,
    arrivals: u32,
    crossed: u32,
}

impl Seen {
    fn new(tree: &[u8]) -> Self {
        let roots = slice_roots(tree).into_iter();
        let levels = roots.filter(|at| tree[*at] == LEVEL_COME);
        Seen {
            kinds: slice_kinds(tree),
            values: levels.map(|at| [tree[at + 1], tree[at + 2]]).collect(),
            arrivals: arrivals(tree),
            crossed: crossed_arrivals(tree),
        }
    }

    fn has(&self, is_meant: fn(u8) -> bool) -> bool {
        self.kinds.iter().any(|kind| is_meant(*kind))
    }

    /// Whether a value has such a byte.
    fn has_byte(&self, is_meant: fn(u8) -> bool) -> bool {
        self.values.iter().flatten().any(|byte| is_meant(*byte))
    }
}

fn is_crossing(kind: u8) -> bool {
    kind == CROSSED
}

/// A name, and whether a slice has what it says.
type Feature = (&'static str, fn(&Seen) -> bool);

/// What is easily counted wrong.
const FEATURES: [Feature; 9] = [
    ("a level with 2 or 4 in its value", |seen| {
        seen.has_byte(is_arrival)
    }),
    ("a level with 6, 9 or 10 in its value", |seen| {
        seen.has_byte(is_crossing) || seen.has_byte(is_choice)
    }),
    ("a level of value 0", |seen| seen.values.contains(&[0, 0])),
    ("cues and no level", |seen| {
        seen.arrivals > 0 && seen.values.is_empty()
    }),
    ("levels and no cue", |seen| {
        seen.arrivals > 0 && seen.arrivals == seen.values.len() as u32
    }),
    ("a crossing and no arrival", |seen| {
        seen.has(is_crossing) && seen.arrivals == 0
    }),
    ("a choice and no arrival", |seen| {
        seen.has(is_choice) && seen.arrivals == 0
    }),
    ("arrivals in a crossed first part", |seen| seen.crossed > 0),
    ("arrivals there and nowhere else", |seen| {
        seen.crossed > 0 && seen.crossed == seen.arrivals
    }),
];

/// Whose arrivals are counted: the columns of the table.
const SLICES: [&str; 3] = ["admitted", "fed", "sent"];

/// The refusals that can come after something was counted.
const REFUSALS: [u32; 6] = [
    fault::SLICE_CUT_SHORT,
    fault::SLICE_UNLISTED,
    fault::SLICE_LEFT_OVER,
    fault::SLICE_MISPLACED,
    fault::NO_ROOM,
    fault::TOTAL_TOO_LARGE,
];

/// The operations that count: the columns of the table of refusals.
const COUNTING: [Operation; 2] = [Operation::Admit, Operation::Feed];

/// What was met in calls of Admit and Feed, alone and in runs.
#[derive(Clone, Debug, Default)]
pub struct ArrivalTally {
    ranges: [[u64; SLICES.len()]; RANGES.len()],
    features: [[u64; SLICES.len()]; FEATURES.len()],
    /// Refused calls in whose slice a cue or a level had come.
    refused: [[u64; COUNTING.len()]; REFUSALS.len()],
}

impl ArrivalTally {
    /// Counts one call. Says if more arrived, or more was sent, than there can be in a slice.
    pub fn add(&mut self, call: &Call, agreed: &Agreed) -> Result<(), String> {
        let Some(column) = COUNTING.iter().position(|one| *one == call.operation) else {
            return Ok(());
        };
        let (answer, slice) = (&agreed.answer, contents(&call.files[1]));
        if answer.number != fault::ACCEPTED {
            let row = REFUSALS.iter().position(|one| *one == answer.number);
            if let Some(row) = row.filter(|_| arrivals(slice) > 0) {
                self.refused[row][column] += 1;
            }
            return Ok(());
        }
        self.add_slice(column, slice, answer.counts.arrived)?;
        match agreed.files.as_slice() {
            [output, _] => self.add_slice(2, contents(output), answer.counts.sent),
            _ => Ok(()),
        }
    }

    fn add_slice(&mut self, column: usize, tree: &[u8], arrivals: u32) -> Result<(), String> {
        let row = range(arrivals).ok_or_else(|| format!("{arrivals} arrivals in a slice"))?;
        self.ranges[row][column] += 1;
        let seen = Seen::new(tree);
        for (count, (_, is_met)) in self.features.iter_mut().zip(FEATURES) {
            count[column] += u64::from(is_met(&seen));
        }
        Ok(())
    }

    fn rows(&self) -> impl Iterator<Item = (&'static str, [u64; SLICES.len()])> + '_ {
        let ranges = RANGES.iter().map(|(_, _, name)| *name).zip(self.ranges);
        let features = FEATURES.iter().map(|(name, _)| *name).zip(self.features);
        ranges.chain(features)
    }

    /// What a long comparison should have met and did not.
    pub fn gaps(&self) -> Vec<String> {
        let mut gaps = Vec::new();
        for (name, counts) in self.rows() {
            for (slices, count) in SLICES.iter().zip(counts) {
                if count == 0 {
                    gaps.push(format!("no slice that was {slices} has {name}"));
                }
            }
        }
        for (number, counts) in REFUSALS.iter().zip(self.refused) {
            for (operation, count) in COUNTING.iter().zip(counts) {
                if count == 0 && is_possible(*operation, *number) {
                    gaps.push(format!(
                        "{operation:?} refused no slice with arrivals with {number}"
                    ));
                }
            }
        }
        gaps
    }
}

/// The range of so many arrivals; none of more than there can be.
pub fn range(arrivals: u32) -> Option<usize> {
    (RANGES.iter()).position(|(least, most, _)| (*least..=*most).contains(&arrivals))
}

impl fmt::Display for ArrivalTally {
    fn fmt(&self, out: &mut fmt::Formatter<'_>) -> fmt::Result {
        write!(out, "{:<40}", "slices with")?;
        for slices in SLICES {
            write!(out, "{slices:>12}")?;
        }
        for (name, counts) in self.rows() {
            write!(out, "\n{name:<40}")?;
            for count in counts {
                write!(out, "{count:>12}")?;
            }
        }
        write!(out, "\n{:<40}", "slices with arrivals, refused with")?;
        for operation in COUNTING {
            write!(out, "{:>12}", format!("by {operation:?}"))?;
        }
        for (number, counts) in REFUSALS.iter().zip(self.refused) {
            write!(out, "\n{number:<40}")?;
            for (operation, count) in COUNTING.iter().zip(counts) {
                if is_possible(*operation, *number) {
                    write!(out, "{count:>12}")?;
                } else {
                    write!(out, "{:>12}", "-")?;
                }
            }
        }
        writeln!(out)
    }
}
