//! How much was sent beside how much came, counted: of whole feeds, and of the nodes in them.

use std::fmt;

use crate::calls::counts::Counts;
use crate::tallies::cases::CASES;
use crate::tallies::feeds::COLUMNS;

/// How what is sent compares with what came.
#[derive(Clone, Copy, Debug, PartialEq, Eq)]
pub enum Share {
    /// None came, and none are sent.
    Nothing,
    /// None came, and some are sent.
    Own,
    /// Some came, and none are sent.
    NoneOfThem,
    Fewer,
    AsMany,
    More,
}

/// In the order of the values.
pub const SHARES: [&str; 6] = [
    "none came and none were sent",
    "none came and some were sent",
    "some came and none were sent",
    "some came and fewer were sent",
    "some came and as many were sent",
    "some came and more were sent",
];

impl Share {
    /// By the cues and levels that came and that are sent.
    pub fn of(counts: Counts) -> Self {
        match (counts.arrived, counts.sent) {
            (0, 0) => Share::Nothing,
            (0, _) => Share::Own,
            (_, 0) => Share::NoneOfThem,
            (came, sent) if sent < came => Share::Fewer,
            (came, sent) if sent == came => Share::AsMany,
            _ => Share::More,
        }
    }
}

/// For each case how many nodes sent more than came to them, fewer, and none of those that came.
pub type Unequal = [[u64; UNEQUAL.len()]; CASES.len()];

/// The columns of the table of nodes.
const UNEQUAL: [&str; 3] = ["more than came", "fewer than came", "none that came"];

/// Counts a node of a case, unless it sent as many as came to it.
pub fn count_unequal(unequal: &mut Unequal, case: usize, share: Share) {
    let column = match share {
        Share::Own | Share::More => 0,
        Share::Fewer => 1,
        Share::NoneOfThem => 2,
        Share::Nothing | Share::AsMany => return,
    };
    unequal[case][column] += 1;
}

/// Which of these can be, in the order of the columns. In the other cases a node sends as many as
/// come to it.
fn can_be(case: &str) -> [bool; UNEQUAL.len()] {
    match case {
        "cue sends" | "level sends" => [true, true, false],
        "silent" | "second on 5" => [false, false, true],
        "left" | "right" | "first on 6" | "second on 6" => [false, true, true],
        "spread on 5" | "spread on 6" => [true, false, false],
        "both" | "then on 5" | "then on 6" | "chain" | "choose on 9" | "choose on 10" => [true; 3],
        _ => [false; 3],
    }
}

/// What was met in accepted feeds.
#[derive(Clone, Debug, Default)]
pub struct ShareTally {
    feeds: [[u64; COLUMNS.len()]; SHARES.len()],
    nodes: Unequal,
}

impl ShareTally {
    /// Counts a feed in these columns, and its nodes. Says if a node sent what it cannot have sent.
    pub fn add(
        &mut self,
        columns: &[usize],
        counts: Counts,
        unequal: &Unequal,
    ) -> Result<(), String> {
        for column in columns {
            self.feeds[Share::of(counts) as usize][*column] += 1;
        }
        for (case, (all, more)) in self.nodes.iter_mut().zip(unequal).enumerate() {
            for (column, (all, more)) in all.iter_mut().zip(more).enumerate() {
                if *more > 0 && !can_be(CASES[case])[column] {
                    let (case, share) = (CASES[case], UNEQUAL[column]);
                    return Err(format!("{case}: a node sent {share}"));
                }
                *all += more;
            }
        }
        Ok(())
    }

    /// What a long comparison should have met and did not.
    pub fn gaps(&self) -> Vec<String> {
        let mut gaps = Vec::new();
        for (share, counts) in SHARES.iter().zip(self.feeds) {
            for (column, count) in COLUMNS.iter().zip(counts) {
                if count == 0 {
                    gaps.push(format!("no accepted feed, {column}: {share}"));
                }
            }
        }
        for (case, counts) in CASES.iter().zip(self.nodes) {
            for (column, count) in counts.into_iter().enumerate() {
                if count == 0 && can_be(case)[column] {
                    gaps.push(format!("{case}: no node that sent {}", UNEQUAL[column]));
                }
            }
        }
        gaps
    }
}

impl fmt::Display for ShareTally {
    fn fmt(&self, out: &mut fmt::Formatter<'_>) -> fmt::Result {
        write!(out, "{:<35}", "accepted feeds")?;
        for column in COLUMNS {
            write!(out, "{column:>17}")?;
        }
        for (share, counts) in SHARES.iter().zip(self.feeds) {
            write!(out, "\n{share:<35}")?;
            for count in counts {
                write!(out, "{count:>17}")?;
            }
        }
        write!(out, "\n{:<35}", "nodes that sent")?;
        for share in UNEQUAL {
            write!(out, "{share:>17}")?;
        }
        let rows = CASES.iter().zip(self.nodes);
        for (case, counts) in rows.filter(|(case, _)| can_be(case).contains(&true)) {
            write!(out, "\n{case:<35}")?;
            for (count, can_be) in counts.into_iter().zip(can_be(case)) {
                if can_be {
                    write!(out, "{count:>17}")?;
                } else {
                    write!(out, "{:>17}", "-")?;
                }
            }
        }
        writeln!(out)
    }
}
