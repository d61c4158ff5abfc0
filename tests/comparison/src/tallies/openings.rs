//! Which cues and levels waited for an arrival, and which sent, counted: by where they are, and by
//! what the slice that came to them brought.

use std::fmt;

use crate::formats::kinds::node_kind::{
    BOTH, CHAIN, CHOOSE, FRONT, MARK_FIRST, MARK_SECOND, NAMES, SILENT, THEN,
};
use crate::formats::kinds::slice_kind::{
    CROSSED, CUE_AWAITED, CUE_COME, FIRST_CHOSEN, IN_FIRST, LEVEL_AWAITED, LEVEL_COME, NONE_CHOSEN,
    SECOND_CHOSEN,
};
use crate::formats::preorder::{brings, slice_roots};

/// What the slice of a node brought, told by the kinds in its bytes.
#[derive(Clone, Copy, Debug, PartialEq, Eq)]
pub enum Brought {
    /// It is the empty slice, and something is awaited.
    Nothing,
    /// It is the empty slice, and nothing is awaited.
    NothingAwaited,
    /// A crossing, of a first part of which nothing came.
    Crossing,
    /// A choice, and nothing of the part that is chosen.
    Choice,
    CrossingAndChoice,
    /// A cue or a level.
    Arrival,
    /// A cue or a level in the last node of a long slice, and nothing before it.
    LastArrival,
}

/// In the order of the values.
const BROUGHT: [&str; 7] = [
    "nothing, and something is awaited",
    "nothing, and nothing is awaited",
    "a crossing alone",
    "a choice alone",
    "crossings and choices alone",
    "a cue or a level",
    "a cue or a level at the end of more than 100 bytes",
];

/// A slice of more bytes is long.
const LONG: usize = 100;

impl Brought {
    /// By the slice with this tree.
    pub fn by(tree: &[u8]) -> Self {
        let roots = slice_roots(tree);
        let has = |kinds: &[u8]| roots.iter().any(|at| kinds.contains(&tree[*at]));
        let crossed = has(&[CROSSED]);
        let chosen = has(&[FIRST_CHOSEN, SECOND_CHOSEN]);
        if has(&[CUE_COME, LEVEL_COME]) {
            let before_last = &tree[..roots[roots.len() - 1]];
            return if tree.len() > LONG && !brings(before_last) {
                Brought::LastArrival
            } else {
                Brought::Arrival
            };
        }
        match (crossed, chosen) {
            (true, true) => Brought::CrossingAndChoice,
            (true, false) => Brought::Crossing,
            (false, true) => Brought::Choice,
            _ if has(&[CUE_AWAITED, LEVEL_AWAITED, IN_FIRST, NONE_CHOSEN]) => Brought::Nothing,
            _ => Brought::NothingAwaited,
        }
    }
}

/// What a feed did to a cue or a level.
#[derive(Clone, Copy, Debug, PartialEq, Eq)]
pub enum Effect {
    /// It stays, and was not fed.
    Unfed,
    /// It was not fed, and its part was not chosen.
    Gone,
    /// It was fed, and is still there.
    Waited(Came),
    /// It was fed, and is no longer there.
    Sent(Came),
}

/// A cue or a level, and what came to it.
#[derive(Clone, Copy, Debug, PartialEq, Eq)]
pub struct Came {
    pub location: Location,
    pub is_level: bool,
    pub brought: Brought,
}

/// Where a node is: alone, a part of a fork of some kind, or behind a node of some kind in a chain.
#[derive(Clone, Copy, Debug, PartialEq, Eq)]
pub enum Location {
    Alone,
    First(u8),
    Second(u8),
    Behind(u8),
}

/// The locations that are not behind a node.
const UNDER: [(Location, &str); 8] = [
    (Location::Alone, "alone"),
    (Location::First(BOTH), "first of both"),
    (Location::Second(BOTH), "second of both"),
    (Location::First(THEN), "first of then"),
    (Location::Second(THEN), "second of then"),
    (Location::First(CHAIN), "first of chain"),
    (Location::First(CHOOSE), "first of choose"),
    (Location::Second(CHOOSE), "second of choose"),
];

const LOCATIONS: usize = UNDER.len() + NAMES.len();

impl Location {
    fn row(self) -> usize {
        match self {
            Location::Behind(kind) => UNDER.len() + usize::from(kind),
            other => (UNDER.iter().position(|(location, _)| *location == other))
                .expect("every kind with parts has its locations"),
        }
    }
}

fn location_name(row: usize) -> String {
    match row.checked_sub(UNDER.len()) {
        Some(kind) => format!("behind {}", NAMES[kind]),
        None => UNDER[row].1.to_string(),
    }
}

/// Whether a node can wait there. Some kinds send nothing on which one does: slices that are
/// complete, crossings and choices.
fn can_wait(row: usize) -> bool {
    [SILENT, FRONT, MARK_FIRST, MARK_SECOND]
        .iter()
        .all(|kind| row != Location::Behind(*kind).row())
}

/// The columns of the tables.
const DONE: [&str; 2] = ["waited", "sent"];
const OPENINGS: [&str; 2] = ["cue", "level"];

/// What was met in accepted feeds; first those that waited, then those that sent.
#[derive(Clone, Debug, Default)]
pub struct OpeningTally {
    locations: [[[u64; DONE.len()]; OPENINGS.len()]; LOCATIONS],
    brought: [[u64; DONE.len()]; BROUGHT.len()],
    /// Those that did other than the slice of the whole patch would tell.
    unlike_patch: [u64; DONE.len()],
}

impl OpeningTally {
    /// Counts what was done to the cues and levels of a patch that was fed this slice. Says if one
    /// did what a slice like the one that came to it cannot bring about.
    pub fn add(&mut self, effects: &[Effect], slice: &[u8]) -> Result<(), String> {
        let patch_waits = Brought::by(slice) == Brought::Nothing;
        for effect in effects {
            let (came, done) = match effect {
                Effect::Waited(came) => (came, 0),
                Effect::Sent(came) => (came, 1),
                Effect::Unfed | Effect::Gone => continue,
            };
            let (opening, brought) = (usize::from(came.is_level), came.brought as usize);
            let waits = came.brought == Brought::Nothing;
            if waits != (done == 0) {
                let (name, done, what) = (OPENINGS[opening], DONE[done], BROUGHT[brought]);
                return Err(format!("a {name} {done} on a slice that brought {what}"));
            }
            self.locations[came.location.row()][opening][done] += 1;
            self.brought[brought][done] += 1;
            self.unlike_patch[done] += u64::from(waits != patch_waits);
        }
        Ok(())
    }

    fn named(&self) -> [(u64, &'static str); 2] {
        let [waited, sent] = self.unlike_patch;
        [
            (waited, "waited though the patch's slice brought something"),
            (sent, "sent though the patch's slice brought nothing"),
        ]
    }

    /// What a long comparison should have met and did not.
    pub fn gaps(&self) -> Vec<String> {
        let mut gaps = Vec::new();
        for (row, counts) in self.locations.iter().enumerate() {
            for (name, [waited, sent]) in OPENINGS.iter().zip(counts) {
                let location = location_name(row);
                if *waited == 0 && can_wait(row) {
                    gaps.push(format!("no {name} waited, {location}"));
                }
                if *sent == 0 {
                    gaps.push(format!("no {name} sent, {location}"));
                }
            }
        }
        for (name, done) in BROUGHT.iter().zip(self.brought) {
            if done == [0, 0] {
                gaps.push(format!("no cue or level was fed a slice with {name}"));
            }
        }
        let missing = self.named().into_iter().filter(|(count, _)| *count == 0);
        gaps.extend(missing.map(|(_, name)| format!("no cue or level {name}")));
        gaps
    }
}

impl fmt::Display for OpeningTally {
    fn fmt(&self, out: &mut fmt::Formatter<'_>) -> fmt::Result {
        write!(out, "{:<23}", "cues and levels, fed")?;
        for name in OPENINGS {
            for done in DONE {
                write!(out, "{:>15}", format!("{name} {done}"))?;
            }
        }
        for (row, counts) in self.locations.iter().enumerate() {
            write!(out, "\n{:<23}", location_name(row))?;
            for [waited, sent] in counts {
                if can_wait(row) {
                    write!(out, "{waited:>15}{sent:>15}")?;
                } else {
                    write!(out, "{:>15}{sent:>15}", "-")?;
                }
            }
        }
        write!(out, "\n{:<53}", "their slice brought")?;
        for done in DONE {
            write!(out, "{done:>15}")?;
        }
        for (name, [waited, sent]) in BROUGHT.iter().zip(self.brought) {
            write!(out, "\n{name:<53}{waited:>15}{sent:>15}")?;
        }
        writeln!(out)?;
        for (count, name) in self.named() {
            writeln!(out, "{count:>9} {name}")?;
        }
        Ok(())
    }
}
