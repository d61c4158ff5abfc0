//! Which types and slices were accepted, counted by the kinds of their nodes.

use std::fmt;

use crate::formats::files::contents;
use crate::formats::kinds::slice_kind::NONE_CHOSEN;
use crate::formats::kinds::{slice_kind, type_kind};
use crate::formats::preorder::{choices, in_crossed_first_parts, is_choice, slice_kinds};

/// What was met in accepted calls of Admit, Left and Join.
#[derive(Clone, Debug, Default)]
pub struct StreamTally {
    /// How many types and slices have a node of each kind.
    types: [u64; type_kind::NAMES.len()],
    slices: [u64; slice_kind::NAMES.len()],
    choices: u64,
    /// Slices with a choice in a first part that is crossed.
    crossed: u64,
    /// Second slices of Join that choose, and first slices that chose before.
    joined_later: u64,
    joined_before: u64,
}

/// Whether a choice is made in a first part that is crossed.
fn chooses_in_crossed(tree: &[u8]) -> bool {
    in_crossed_first_parts(tree).into_iter().any(is_choice)
}

/// Counts each kind once.
fn count(counts: &mut [u64], kinds: &[u8]) {
    for (kind, count) in (0..).zip(counts) {
        *count += u64::from(kinds.contains(&kind));
    }
}

impl StreamTally {
    /// Counts the files of an accepted call.
    pub fn add(&mut self, files: &[Vec<u8>]) {
        let trees: Vec<&[u8]> = files.iter().map(|file| contents(file)).collect();
        count(&mut self.types, trees[0]);
        for tree in &trees[1..] {
            count(&mut self.slices, &slice_kinds(tree));
            self.choices += choices(tree);
            self.crossed += u64::from(chooses_in_crossed(tree));
        }
        if let [_, first, second] = trees[..] {
            let waits = slice_kinds(first).contains(&NONE_CHOSEN);
            self.joined_later += u64::from(waits && choices(second) > 0);
            self.joined_before += u64::from(choices(first) > 0);
        }
    }

    /// All choices.
    pub fn choices(&self) -> u64 {
        self.choices
    }

    fn named(&self) -> [(u64, &'static str); 3] {
        [
            (self.crossed, "slices chose in a crossed first part"),
            (self.joined_later, "joins made a choice that was awaited"),
            (self.joined_before, "joins went on behind a choice"),
        ]
    }

    /// What the calls of a long run should have met and did not.
    pub fn gaps(&self) -> Vec<String> {
        let mut gaps = Vec::new();
        for (what, names, counts) in self.tables() {
            let missing = names.iter().zip(counts).filter(|(_, count)| **count == 0);
            gaps.extend(missing.map(|(name, _)| format!("no accepted {what} has {name}")));
        }
        let missing = self.named().into_iter().filter(|(count, _)| *count == 0);
        gaps.extend(missing.map(|(_, name)| format!("no {name}")));
        gaps
    }

    fn tables(&self) -> [(&'static str, &'static [&'static str], &[u64]); 2] {
        [
            ("type", &type_kind::NAMES, &self.types),
            ("slice", &slice_kind::NAMES, &self.slices),
        ]
    }
}

impl fmt::Display for StreamTally {
    fn fmt(&self, out: &mut fmt::Formatter<'_>) -> fmt::Result {
        for (what, names, counts) in self.tables() {
            writeln!(out, "accepted, of Admit, Left and Join: {what}s with")?;
            for (kind, (name, count)) in names.iter().zip(counts).enumerate() {
                writeln!(out, "{kind:>2} {name:<17}{count:>9}")?;
            }
        }
        for (count, name) in self.named() {
            writeln!(out, "{count:>9} {name}")?;
        }
        Ok(())
    }
}
