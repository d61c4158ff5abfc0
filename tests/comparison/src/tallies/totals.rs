//! The totals of patches, counted: what feeds made of them, about the greatest above all, and the
//! ways in which their section was wrong.

use std::fmt;

use second_interpreter::Totals;

use crate::calls::apart::Apart;
use crate::calls::call::{Call, Operation};
use crate::calls::comparison::Agreed;
use crate::calls::counts::Counts;
use crate::formats::fault::{self, SLICE_NUMBERS};
use crate::formats::files::{contents, count, nodes_end};
use crate::formats::preorder::arrivals;
use crate::formats::totals::{read_totals, totals_in, GREATEST_TOTAL};
use crate::runs::split::Split;
use crate::tallies::feeds::Position;

/// A feed of an accepted patch: its number, the totals of the patch, what came and was sent, and
/// whether each lent buffer is too short. In a refused slice that came which can be read of it.
struct Seen {
    number: u32,
    totals: Totals,
    counts: Counts,
    short: Vec<bool>,
}

impl Seen {
    /// By a call of Feed. None if the patch is refused.
    fn of(call: &Call, agreed: &Agreed) -> Option<Self> {
        let number = agreed.answer.number;
        let (counts, short) = match number {
            fault::ACCEPTED => (agreed.answer.counts, Vec::new()),
            fault::NO_ROOM | fault::TOTAL_TOO_LARGE => {
                let parts = Apart::of(call)?;
                (parts.rest.counts, parts.short)
            }
            _ if SLICE_NUMBERS.contains(&number) => {
                let arrived = arrivals(contents(&call.files[1]));
                (Counts { arrived, sent: 0 }, Vec::new())
            }
            _ => return None,
        };
        let totals = totals_in(&call.files[0])?;
        Some(Seen {
            number,
            totals,
            counts,
            short,
        })
    }

    /// What arrived before and now, and the same of what was sent.
    fn pairs(&self) -> [(u32, u32); 2] {
        [
            (self.totals.arrived, self.counts.arrived),
            (self.totals.sent, self.counts.sent),
        ]
    }

    fn sums(&self) -> [u64; 2] {
        self.pairs()
            .map(|(total, more)| u64::from(total) + u64::from(more))
    }

    /// Whether each total would pass the greatest.
    fn passes(&self) -> [bool; 2] {
        self.sums().map(|sum| sum > u64::from(GREATEST_TOTAL))
    }

    /// Whether each total comes to the greatest now, and was not there before.
    fn comes_to_greatest(&self) -> [bool; 2] {
        (self.pairs()).map(|(total, more)| more > 0 && more == GREATEST_TOTAL - total)
    }

    fn is_full(&self) -> [bool; 2] {
        self.pairs().map(|(total, _)| total == GREATEST_TOTAL)
    }

    fn brings_nothing(&self) -> bool {
        self.counts == Counts::default()
    }

    fn is(&self, number: u32) -> bool {
        self.number == number
    }

    fn is_accepted(&self) -> bool {
        self.is(fault::ACCEPTED)
    }

    fn is_refused(&self) -> bool {
        self.is(fault::TOTAL_TOO_LARGE)
    }

    /// Whether the slice is refused with this number, and a total would pass if it were not.
    fn hides(&self, number: u32) -> bool {
        self.is(number) && self.passes()[0]
    }

    /// Whether adding changes a byte of a total that has so many below it.
    fn carries(&self, below: u32) -> bool {
        let sums = self.pairs().into_iter().zip(self.sums());
        let changes = |((total, _), sum)| u64::from(total) >> (8 * below) != sum >> (8 * below);
        self.is_accepted() && sums.into_iter().any(changes)
    }
}

/// A name, and whether a feed is one of these.
type Feature = (&'static str, fn(&Seen) -> bool);

/// What is easily done wrong.
const FEATURES: [Feature; 23] = [
    ("31 for what arrived alone", |seen| {
        seen.is_refused() && seen.passes() == [true, false]
    }),
    ("31 for what was sent alone", |seen| {
        seen.is_refused() && seen.passes() == [false, true]
    }),
    ("31 for both", |seen| {
        seen.is_refused() && seen.passes() == [true, true]
    }),
    ("31 where nothing arrived", |seen| {
        seen.is_refused() && seen.counts.arrived == 0
    }),
    ("31 where nothing was sent", |seen| {
        seen.is_refused() && seen.counts.sent == 0
    }),
    ("31 for one too many", |seen| {
        let one_above = seen.sums().map(|sum| sum == u64::from(GREATEST_TOTAL) + 1);
        seen.is_refused() && one_above == seen.passes()
    }),
    ("31 with totals that were not full", |seen| {
        seen.is_refused() && seen.is_full() == [false, false]
    }),
    ("31 with a short buffer for the output", |seen| {
        seen.is_refused() && seen.short == [true, false]
    }),
    ("31 with a short buffer for the patch", |seen| {
        seen.is_refused() && seen.short == [false, true]
    }),
    ("31 with two long buffers", |seen| {
        seen.is_refused() && seen.short == [false, false]
    }),
    ("accepted, what arrived comes to the greatest", |seen| {
        seen.is_accepted() && seen.comes_to_greatest()[0]
    }),
    ("accepted, what was sent comes to the greatest", |seen| {
        seen.is_accepted() && seen.comes_to_greatest()[1]
    }),
    ("accepted, both come to the greatest", |seen| {
        seen.is_accepted() && seen.comes_to_greatest() == [true, true]
    }),
    ("accepted, both full, and nothing comes", |seen| {
        seen.is_accepted() && seen.is_full() == [true, true] && seen.brings_nothing()
    }),
    ("accepted, one full, and the other grows", |seen| {
        let [arrived, sent] = seen.is_full();
        seen.is_accepted() && arrived != sent && !seen.brings_nothing()
    }),
    ("accepted, the second byte changes", |seen| seen.carries(1)),
    ("accepted, the third byte changes", |seen| seen.carries(2)),
    ("accepted, the highest byte changes", |seen| seen.carries(3)),
    ("20 where a total comes to the greatest", |seen| {
        seen.is(fault::NO_ROOM) && seen.comes_to_greatest().contains(&true)
    }),
    ("11 though what came would pass", |seen| {
        seen.hides(fault::SLICE_CUT_SHORT)
    }),
    ("12 though what came would pass", |seen| {
        seen.hides(fault::SLICE_UNLISTED)
    }),
    ("13 though what came would pass", |seen| {
        seen.hides(fault::SLICE_LEFT_OVER)
    }),
    ("14 though what came would pass", |seen| {
        seen.hides(fault::SLICE_MISPLACED)
    }),
];

/// The columns of the table of feeds.
const FEEDS: [&str; 2] = ["alone", "in a run"];

/// What is behind the nodes of a patch: how many bytes, and how many the first two of them count.
#[derive(Clone, Copy, Debug)]
struct Behind {
    length: usize,
    counted: usize,
}

impl Behind {
    /// Whether so many bytes are counted, and so many are there to be counted.
    fn is(self, counted: usize, there: usize) -> bool {
        self.counted == counted && self.length == 2 + there
    }

    fn is_whole(self) -> bool {
        self.length >= 2 + self.counted
    }
}

/// A name, and whether the section of the totals is wrong in this way.
type Way = (&'static str, fn(Behind) -> bool);

/// The ways. The low byte of 264 is 8.
const WAYS: [Way; 14] = [
    ("none", |behind| behind.length == 0),
    ("one byte", |behind| behind.length == 1),
    ("0 counted, 0 there", |behind| behind.is(0, 0)),
    ("fewer than 7 counted", |behind| {
        behind.length > 2 && behind.counted < 7
    }),
    ("7 counted, 7 there", |behind| behind.is(7, 7)),
    ("7 counted, 8 there", |behind| behind.is(7, 8)),
    ("8 counted, 7 there", |behind| behind.is(8, 7)),
    ("8 counted, 9 there", |behind| behind.is(8, 9)),
    ("9 counted, 8 there", |behind| behind.is(9, 8)),
    ("9 counted, 9 there", |behind| behind.is(9, 9)),
    ("9 counted, 10 there", |behind| behind.is(9, 10)),
    ("10 to 300 counted, all there", |behind| {
        (10..=300).contains(&behind.counted) && behind.is_whole()
    }),
    ("10 to 300 counted, not all there", |behind| {
        (10..=300).contains(&behind.counted) && !behind.is_whole()
    }),
    ("264 counted, 8 there", |behind| behind.is(264, 8)),
];

/// Who refused the patch for it, and whether another fault was left for the second pass.
const REFUSED: [&str; 3] = ["by Check", "by Feed", "before 4, 6, 7, 30"];

/// What pieces of a slice were like.
const SPLITS: [&str; 3] = [
    "any pieces",
    "arrivals in several of them",
    "a total that several bring to the greatest",
];

/// What was met in calls of Check and Feed, alone and in runs.
#[derive(Clone, Debug, Default)]
pub struct TotalTally {
    feeds: [[u64; FEEDS.len()]; FEATURES.len()],
    ways: [[u64; REFUSED.len()]; WAYS.len()],
    /// Patches with such a section that were refused for a fault in front of it.
    in_front: u64,
    /// Slices that were accepted whole and in pieces.
    splits: [[u64; FEEDS.len()]; SPLITS.len()],
    /// Runs that brought a total to the greatest.
    runs: u64,
}

impl TotalTally {
    /// Counts one call. Says if 31 was answered where no total would pass, or was not where one
    /// would, and if a wrong section was refused with another number than its own.
    pub fn add(&mut self, call: &Call, agreed: &Agreed, position: Position) -> Result<(), String> {
        if !call.operation.takes_patch() {
            return Ok(());
        }
        self.add_section(call, agreed.answer.number)?;
        if call.operation != Operation::Feed {
            return Ok(());
        }
        let Some(seen) = Seen::of(call, agreed) else {
            return Ok(());
        };
        let is_due = seen.passes().contains(&true) && !SLICE_NUMBERS.contains(&seen.number);
        if is_due != seen.is_refused() {
            let (number, sums) = (seen.number, seen.sums());
            return Err(format!("Feed answers {number}, and the sums are {sums:?}"));
        }
        for (counts, (_, is_met)) in self.feeds.iter_mut().zip(FEATURES) {
            counts[column(position)] += u64::from(is_met(&seen));
        }
        Ok(())
    }

    /// Counts a call whose patch has a wrong section of totals.
    fn add_section(&mut self, call: &Call, number: u32) -> Result<(), String> {
        let patch = &call.files[0];
        let Some(behind) = nodes_end(patch).map(|end| &patch[end..]) else {
            return Ok(());
        };
        let Err(of_section) = read_totals(behind) else {
            return Ok(());
        };
        let parts = Apart::of(call).expect("its nodes are all there");
        let due = parts.in_front.unwrap_or(of_section);
        if number != due {
            return Err(format!(
                "a patch for which {due} is due is refused with {number}"
            ));
        }
        if parts.in_front.is_some() {
            self.in_front += 1;
        } else {
            self.add_way(call.operation, parts.second_pass.is_some(), behind);
        }
        Ok(())
    }

    fn add_way(&mut self, operation: Operation, before: bool, behind: &[u8]) {
        let columns = [
            operation == Operation::Check,
            operation == Operation::Feed,
            before,
        ];
        let behind = Behind {
            length: behind.len(),
            counted: count(behind),
        };
        for (counts, (_, is_met)) in self.ways.iter_mut().zip(WAYS) {
            for (count, column) in counts.iter_mut().zip(columns) {
                *count += u64::from(column && is_met(behind));
            }
        }
    }

    /// Counts a run, by the patch at its start and the one that it left.
    pub fn add_run(&mut self, start: &[u8], left: &[u8]) {
        self.runs += u64::from(comes_to_greatest(start, left));
    }

    /// Counts a slice that was cut into pieces.
    pub fn add_split(&mut self, split: &Split, position: Position) {
        let several = split.arriving > 1;
        let met = [
            true,
            several,
            several && comes_to_greatest(&split.start, &split.left),
        ];
        for (counts, met) in self.splits.iter_mut().zip(met) {
            counts[column(position)] += u64::from(met);
        }
    }

    /// How many slices were cut into pieces.
    pub fn told(&self) -> String {
        let [alone, in_runs] = self.splits[0];
        format!(
            "{} slices were accepted whole and in pieces, {in_runs} of them those of runs",
            alone + in_runs
        )
    }

    fn named(&self) -> [(u64, &'static str); 2] {
        [
            (
                self.in_front,
                "patches with a wrong third section were refused for a fault in front of it",
            ),
            (self.runs, "runs brought a total to the greatest"),
        ]
    }

    fn rows_of_feeds(&self) -> Vec<Row<{ FEEDS.len() }>> {
        let names = FEATURES.iter().map(|(name, _)| *name);
        names.zip(self.feeds).collect()
    }

    fn rows_of_ways(&self) -> Vec<Row<{ REFUSED.len() }>> {
        let names = WAYS.iter().map(|(name, _)| *name);
        names.zip(self.ways).collect()
    }

    fn rows_of_splits(&self) -> Vec<Row<{ FEEDS.len() }>> {
        SPLITS.into_iter().zip(self.splits).collect()
    }

    /// What a long comparison should have met and did not.
    pub fn gaps(&self) -> Vec<String> {
        let mut gaps = missing("feed", FEEDS, &self.rows_of_feeds());
        gaps.extend(missing("third section", REFUSED, &self.rows_of_ways()));
        gaps.extend(missing("slice in pieces", FEEDS, &self.rows_of_splits()));
        let missing = self.named().into_iter().filter(|(count, _)| *count == 0);
        gaps.extend(missing.map(|(_, name)| format!("no {name}")));
        gaps
    }
}

/// The column of the tables of feeds.
fn column(position: Position) -> usize {
    usize::from(position != Position::Alone)
}

/// A name, and how often it was met, by column.
type Row<const COLUMNS: usize> = (&'static str, [u64; COLUMNS]);

/// What was never met.
fn missing<const COLUMNS: usize>(
    what: &str,
    columns: [&str; COLUMNS],
    rows: &[Row<COLUMNS>],
) -> Vec<String> {
    let mut gaps = Vec::new();
    for (name, counts) in rows {
        for (column, count) in columns.iter().zip(counts) {
            if *count == 0 {
                gaps.push(format!("no {what}, {column}: {name}"));
            }
        }
    }
    gaps
}

/// Whether a total is the greatest in the patch left and was not at the start.
fn comes_to_greatest(start: &[u8], left: &[u8]) -> bool {
    let full = |patch| {
        let totals = totals_in(patch).unwrap_or_default();
        [totals.arrived, totals.sent].map(|total| total == GREATEST_TOTAL)
    };
    let [before, after] = [full(start), full(left)];
    (before.into_iter().zip(after)).any(|(before, after)| !before && after)
}

fn write_table<const COLUMNS: usize>(
    out: &mut fmt::Formatter<'_>,
    title: &str,
    columns: [&str; COLUMNS],
    rows: &[Row<COLUMNS>],
) -> fmt::Result {
    write!(out, "{title:<47}")?;
    for column in columns {
        write!(out, "{column:>20}")?;
    }
    for (name, counts) in rows {
        write!(out, "\n{name:<47}")?;
        for count in counts {
            write!(out, "{count:>20}")?;
        }
    }
    writeln!(out)
}

impl fmt::Display for TotalTally {
    fn fmt(&self, out: &mut fmt::Formatter<'_>) -> fmt::Result {
        write_table(out, "totals in feeds", FEEDS, &self.rows_of_feeds())?;
        write_table(
            out,
            "slices cut into pieces, with",
            FEEDS,
            &self.rows_of_splits(),
        )?;
        write_table(
            out,
            "bytes behind the nodes, refused",
            REFUSED,
            &self.rows_of_ways(),
        )?;
        for (count, name) in self.named() {
            writeln!(out, "{count:>9} {name}")?;
        }
        Ok(())
    }
}
