//! Which nodes were fed, and with what, counted.

use std::fmt;

use second_interpreter::{slice_file, Node};

use crate::calls::comparison::Agreed;
use crate::formats::files::contents;
use crate::formats::preorder::choices;
use crate::formats::trees::{patch_trees, slice_tree};
use crate::tallies::cases::{Met, CASES};
use crate::tallies::openings::{Effect, OpeningTally};
use crate::tallies::shares::ShareTally;
use crate::tallies::walk::Walk;

/// Where a feed is made.
#[derive(Clone, Copy, Debug, PartialEq, Eq)]
pub enum Position {
    /// A call of its own.
    Alone,
    /// In a run, after so many accepted feeds.
    InRun { after: usize },
}

/// A feed comes late in a run if so many were accepted before it.
pub const LATE: usize = 10;

/// The columns of the tables.
pub const COLUMNS: [&str; 3] = ["alone", "in a run", "late in a run"];

/// What was met in accepted calls of Feed.
#[derive(Clone, Debug, Default)]
pub struct FeedTally {
    /// How many accepted feeds met each case, in every column.
    feeds: [Met; COLUMNS.len()],
    /// Feeds of patches with the most nodes, and feeds that left a longer patch file.
    largest: u64,
    longer: u64,
    /// The choices in slices of calls of their own.
    choices_alone: u64,
    openings: OpeningTally,
    shares: ShareTally,
}

impl FeedTally {
    /// Counts an accepted feed. Answers what was done to each cue and level of the patch, or says
    /// if what is found by following it is not what was sent.
    pub fn add(
        &mut self,
        position: Position,
        files: &[Vec<u8>],
        agreed: &Agreed,
    ) -> Result<Vec<Effect>, String> {
        let ([patch, slice], [output, patch_left]) = (files, agreed.files.as_slice()) else {
            unreachable!("Feed has two files and writes two");
        };
        let (input, node) = patch_trees(patch);
        let (_, left) = patch_trees(patch_left);
        let (walk, sent) = Walk::of(&node, &input, &slice_tree(contents(slice)), &left)?;
        if slice_file(&sent) != *output {
            return Err("the walk over the nodes sends something else".to_string());
        }
        self.openings.add(&walk.effects, contents(slice))?;
        let columns: &[usize] = match position {
            Position::Alone => &[0],
            Position::InRun { after } if after < LATE => &[1],
            Position::InRun { .. } => &[1, 2],
        };
        for column in columns {
            for (feeds, times) in self.feeds[*column].iter_mut().zip(walk.met) {
                *feeds += u64::from(times > 0);
            }
        }
        (self.shares).add(columns, agreed.answer.counts, &walk.unequal)?;
        if position == Position::Alone {
            self.choices_alone += choices(contents(slice));
        }
        self.largest += u64::from(node.count() == Node::LIMIT);
        self.longer += u64::from(patch_left.len() > patch.len());
        Ok(walk.effects)
    }

    /// The choices in slices of calls of their own.
    pub fn choices_alone(&self) -> u64 {
        self.choices_alone
    }

    /// What a long comparison should have met and did not.
    pub fn gaps(&self) -> Vec<String> {
        let mut gaps = Vec::new();
        for (column, met) in COLUMNS.iter().zip(&self.feeds) {
            for (case, feeds) in CASES.iter().zip(met) {
                if *feeds == 0 {
                    gaps.push(format!("no accepted feed, {column}, met {case}"));
                }
            }
        }
        for (times, what) in self.extremes() {
            if times == 0 {
                gaps.push(format!("no accepted feed {what}"));
            }
        }
        gaps.extend(self.openings.gaps());
        gaps.extend(self.shares.gaps());
        gaps
    }

    fn extremes(&self) -> [(u64, String); 2] {
        [
            (
                self.largest,
                format!("was of a patch of {} nodes", Node::LIMIT),
            ),
            (self.longer, "left a longer patch file".to_string()),
        ]
    }
}

impl fmt::Display for FeedTally {
    fn fmt(&self, out: &mut fmt::Formatter<'_>) -> fmt::Result {
        write!(out, "{:<23}", "accepted feeds that met")?;
        for column in COLUMNS {
            write!(out, "{column:>15}")?;
        }
        for (case, name) in CASES.iter().enumerate() {
            write!(out, "\n{name:<23}")?;
            for met in &self.feeds {
                write!(out, "{:>15}", met[case])?;
            }
        }
        writeln!(out, "\nlate is after {LATE} accepted feeds")?;
        for (times, what) in self.extremes() {
            writeln!(out, "{times} times an accepted feed {what}")?;
        }
        write!(out, "\n{}\n{}", self.openings, self.shares)
    }
}
