//! Request M-103: nodes 2 and 3 wait for an arrival, as bytes.

use second_interpreter::check;

use crate::common::{answered, fed, patch, section};
use crate::properties::Run;
use crate::refusals::with;

/// What a node of kind 2 or 3 does with a slice.
#[derive(Clone, Copy, Debug, PartialEq, Eq)]
pub enum Does {
    /// Sends the empty slice of its own type and stays.
    Waits,
    /// Sends its cue or level and leaves silent 0.
    Opens,
}

use Does::{Opens, Waits};

/// A node of kind 2 or 3: its bytes, and what it sends waiting and opening.
pub struct Opener {
    /// The node's bytes.
    pub bytes: &'static [u8],
    waiting: &'static [u8],
    opening: &'static [u8],
}

/// A cue, a level, and a level of 0, which is not the one that has not come.
pub const OPENERS: [Opener; 3] = [
    Opener {
        bytes: &[2],
        waiting: &[1],
        opening: &[2],
    },
    Opener {
        bytes: &[3, 1, 7],
        waiting: &[3],
        opening: &[4, 1, 7],
    },
    Opener {
        bytes: &[3, 0, 0],
        waiting: &[3],
        opening: &[4, 0, 0],
    },
];

impl Opener {
    /// What it sends and the node it leaves.
    pub fn answer(&self, does: Does) -> (&'static [u8], &'static [u8]) {
        match does {
            Waits => (self.waiting, self.bytes),
            Opens => (self.opening, &[1, 0]),
        }
    }
}

/// A feed of a node alone: type, slice; what it does, type left.
type Alone<'a> = (&'a [u8], &'a [u8], Does, &'a [u8]);

/// Expects each feed of a table, of nodes 2 and 3.
fn expect_alone(table: &[Alone]) {
    for (stream, slice, does, stream_left) in table {
        for opener in &OPENERS {
            let (sent, left) = opener.answer(*does);
            assert_eq!(
                fed(&patch(stream, opener.bytes), &section(slice)),
                Ok((section(sent), patch(stream_left, left))),
                "type {stream:?}, nodes {:?}, slice {slice:?}",
                opener.bytes
            );
        }
    }
}

#[test]
fn arrivals() {
    expect_alone(&[
        (&[1], &[1], Waits, &[1]),
        (&[1], &[2], Opens, &[0]),
        (&[2], &[3], Waits, &[2]),
        (&[2], &[4, 1, 2], Opens, &[0]),
        // A level 0 come is an arrival.
        (&[2], &[4, 0, 0], Opens, &[0]),
        (&[3, 1, 2], &[5, 1], Waits, &[3, 1, 2]),
        (&[3, 1, 2], &[5, 2], Opens, &[3, 0, 2]),
        (&[3, 1, 2], &[6, 2, 3], Opens, &[2]),
        (&[4, 1, 2], &[7, 1, 3], Waits, &[4, 1, 2]),
        (&[4, 1, 2], &[7, 2, 3], Opens, &[4, 0, 2]),
        (&[4, 1, 2], &[7, 1, 4, 0, 0], Opens, &[4, 1, 0]),
        (&[5, 1, 2], &[8], Waits, &[5, 1, 2]),
        (&[5, 1, 2], &[9, 2], Opens, &[0]),
        (&[5, 1, 2], &[10, 4, 0, 0], Opens, &[0]),
        (&[3, 3, 1, 1, 1], &[5, 5, 1], Waits, &[3, 3, 1, 1, 1]),
        (&[3, 3, 1, 1, 1], &[5, 5, 2], Opens, &[3, 3, 0, 1, 1]),
        (
            &[4, 3, 1, 1, 5, 1, 1],
            &[7, 5, 1, 8],
            Waits,
            &[4, 3, 1, 1, 5, 1, 1],
        ),
        (
            &[4, 3, 1, 1, 5, 1, 1],
            &[7, 5, 2, 8],
            Opens,
            &[4, 3, 0, 1, 5, 1, 1],
        ),
    ]);
}

#[test]
fn slices_that_differ_by_a_crossing_alone() {
    expect_alone(&[
        (&[3, 0, 1], &[5, 0], Waits, &[3, 0, 1]),
        (&[3, 0, 1], &[6, 0, 1], Opens, &[1]),
        (&[3, 4, 0, 0, 2], &[5, 7, 0, 0], Waits, &[3, 4, 0, 0, 2]),
        (&[3, 4, 0, 0, 2], &[6, 7, 0, 0, 3], Opens, &[2]),
        (&[3, 0, 3, 0, 1], &[5, 0], Waits, &[3, 0, 3, 0, 1]),
        (&[3, 0, 3, 0, 1], &[6, 0, 5, 0], Opens, &[3, 0, 1]),
        (&[3, 0, 5, 1, 2], &[6, 0, 8], Opens, &[5, 1, 2]),
        (&[3, 3, 0, 1, 1], &[5, 5, 0], Waits, &[3, 3, 0, 1, 1]),
        (&[3, 3, 0, 1, 1], &[5, 6, 0, 1], Opens, &[3, 1, 1]),
        (&[4, 3, 0, 1, 1], &[7, 5, 0, 1], Waits, &[4, 3, 0, 1, 1]),
        (&[4, 3, 0, 1, 1], &[7, 6, 0, 1, 1], Opens, &[4, 1, 1]),
        (&[4, 1, 3, 0, 1], &[7, 1, 6, 0, 1], Opens, &[4, 1, 1]),
    ]);
}

#[test]
fn slices_that_differ_by_a_choice_alone() {
    expect_alone(&[
        (&[5, 1, 2], &[9, 1], Opens, &[1]),
        (&[5, 1, 2], &[10, 3], Opens, &[2]),
        (&[5, 5, 1, 2, 0], &[8], Waits, &[5, 5, 1, 2, 0]),
        (&[5, 5, 1, 2, 0], &[9, 8], Opens, &[5, 1, 2]),
        (&[5, 3, 1, 1, 0], &[9, 5, 1], Opens, &[3, 1, 1]),
        (&[5, 0, 4, 1, 1], &[10, 7, 1, 1], Opens, &[4, 1, 1]),
        (&[3, 5, 1, 2, 1], &[5, 8], Waits, &[3, 5, 1, 2, 1]),
        (&[3, 5, 1, 2, 1], &[5, 10, 3], Opens, &[3, 2, 1]),
        (&[4, 5, 1, 2, 1], &[7, 8, 1], Waits, &[4, 5, 1, 2, 1]),
        (&[4, 5, 1, 2, 1], &[7, 9, 1, 1], Opens, &[4, 1, 1]),
    ]);
}

#[test]
fn complete_empty_slices() {
    expect_alone(&[
        (&[0], &[0], Opens, &[0]),
        (&[4, 0, 0], &[7, 0, 0], Opens, &[4, 0, 0]),
        (&[4, 0, 4, 0, 0], &[7, 0, 7, 0, 0], Opens, &[4, 0, 4, 0, 0]),
        // One side alone is not enough.
        (&[4, 0, 1], &[7, 0, 1], Waits, &[4, 0, 1]),
        (&[4, 2, 0], &[7, 3, 0], Waits, &[4, 2, 0]),
        // Nothing can come, but a crossing or a choice is still owed.
        (&[3, 0, 0], &[5, 0], Waits, &[3, 0, 0]),
        (&[3, 0, 0], &[6, 0, 0], Opens, &[0]),
        (&[3, 0, 3, 0, 0], &[5, 0], Waits, &[3, 0, 3, 0, 0]),
        (&[3, 0, 3, 0, 0], &[6, 0, 5, 0], Opens, &[3, 0, 0]),
        (&[4, 0, 3, 0, 0], &[7, 0, 5, 0], Waits, &[4, 0, 3, 0, 0]),
        (&[5, 0, 0], &[8], Waits, &[5, 0, 0]),
        (&[5, 0, 0], &[9, 0], Opens, &[0]),
        (&[5, 0, 0], &[10, 0], Opens, &[0]),
    ]);
}

/// A feed of a node behind others: type, nodes before, slice; what the last does,
/// type left, nodes left of those before.
type Behind<'a> = (&'a [u8], &'a [u8], &'a [u8], Does, &'a [u8], &'a [u8]);

/// Behind kinds that ask for no shape.
const BEHIND_ANY: [Behind; 22] = [
    (&[1], &[0], &[1], Waits, &[1], &[0]),
    (&[1], &[0], &[2], Opens, &[0], &[0]),
    // What silent sends is complete at once.
    (&[1], &[1, 0], &[1], Opens, &[1], &[1, 0]),
    (&[1], &[1, 4, 0, 0], &[1], Opens, &[1], &[1, 4, 0, 0]),
    // One that waits keeps the next one waiting.
    (&[1], &[2], &[1], Waits, &[1], &[2]),
    (&[1], &[2], &[2], Opens, &[0], &[1, 0]),
    (&[0], &[2], &[0], Opens, &[0], &[1, 0]),
    (&[5, 1, 2], &[2], &[9, 1], Opens, &[1], &[1, 0]),
    (&[1], &[3, 0, 0], &[1], Waits, &[1], &[3, 0, 0]),
    (&[1], &[3, 0, 0], &[2], Opens, &[0], &[1, 0]),
    (&[1], &[4, 0, 0], &[1], Waits, &[1], &[4, 0, 0]),
    (&[1], &[4, 0, 0], &[2], Opens, &[0], &[4, 0, 0]),
    (&[1], &[4, 0, 1, 0], &[1], Waits, &[1], &[4, 0, 1, 0]),
    (&[1], &[4, 1, 0, 1, 0], &[1], Opens, &[1], &[4, 1, 0, 1, 0]),
    (&[1], &[10, 0, 0], &[1], Waits, &[1], &[10, 0, 0]),
    (&[1], &[10, 0, 0], &[2], Opens, &[0], &[10, 0, 0]),
    // Front crosses, but of the crossing only the second part's slice comes.
    (&[1], &[10, 14, 8], &[1], Waits, &[1], &[10, 0, 0]),
    (&[1], &[10, 14, 7], &[1], Opens, &[1], &[10, 0, 1, 0]),
    // Front and the marks differ from the empty slice at their first feed.
    (&[1], &[14], &[1], Opens, &[1], &[0]),
    (&[1], &[16, 2], &[1], Opens, &[1], &[0]),
    (&[1], &[17, 2], &[1], Opens, &[1], &[0]),
    (&[0], &[14], &[0], Opens, &[0], &[0]),
];

/// Behind kinds that take one side or part.
const BEHIND_PARTS: [Behind; 16] = [
    (&[4, 1, 2], &[5], &[7, 1, 4, 0, 7], Waits, &[4, 1, 0], &[5]),
    (&[4, 1, 2], &[5], &[7, 2, 3], Opens, &[4, 0, 2], &[5]),
    (&[4, 0, 1], &[5], &[7, 0, 1], Opens, &[4, 0, 1], &[5]),
    (&[4, 1, 2], &[6], &[7, 2, 3], Waits, &[4, 0, 2], &[6]),
    (&[4, 1, 2], &[6], &[7, 1, 4, 0, 7], Opens, &[4, 1, 0], &[6]),
    (&[4, 1, 0], &[6], &[7, 1, 0], Opens, &[4, 1, 0], &[6]),
    (&[3, 1, 2], &[7], &[5, 1], Waits, &[3, 1, 2], &[7]),
    (&[3, 1, 2], &[7], &[5, 2], Opens, &[3, 0, 2], &[7]),
    (&[3, 1, 2], &[7], &[6, 2, 3], Opens, &[2], &[1, 0]),
    (&[3, 0, 1], &[7], &[5, 0], Opens, &[3, 0, 1], &[7]),
    // Second sends nothing before the crossing, and what comes of its part after.
    (&[3, 1, 2], &[8], &[5, 1], Waits, &[3, 1, 2], &[8]),
    (&[3, 1, 2], &[8], &[5, 2], Waits, &[3, 0, 2], &[8]),
    (&[3, 1, 2], &[8], &[6, 2, 3], Waits, &[2], &[0]),
    (&[3, 1, 2], &[8], &[6, 2, 4, 0, 7], Opens, &[0], &[0]),
    (&[3, 1, 0], &[8], &[5, 1], Opens, &[3, 1, 0], &[8]),
    (
        &[3, 3, 0, 0, 1],
        &[7],
        &[5, 5, 0],
        Waits,
        &[3, 3, 0, 0, 1],
        &[7],
    ),
];

/// Sequences for then, regroup right, regroup left and spread, each with a first
/// part that is to come and with one that is empty.
const ROW: &[u8] = &[3, 1, 1];
const ROW_LEFT: &[u8] = &[3, 0, 1];
const TO_RIGHT: &[u8] = &[3, 3, 1, 2, 1];
const TO_RIGHT_LEFT: &[u8] = &[3, 3, 0, 2, 1];
const TO_LEFT: &[u8] = &[3, 1, 3, 2, 1];
const TO_LEFT_LEFT: &[u8] = &[3, 0, 3, 2, 1];
const TO_SPREAD: &[u8] = &[3, 1, 4, 1, 2];
const TO_SPREAD_LEFT: &[u8] = &[3, 0, 4, 1, 2];
/// A then whose first part sends nothing on.
const HUSHED: &[u8] = &[9, 1, 0, 0];
/// Two equal parts to choose from, and a choose that gives a nullable type.
const SKIES: &[u8] = &[5, 1, 1];
const HUSHED_SKIES: &[u8] = &[15, 1, 0, 1, 0];

/// Behind kinds that take a whole sequence or either.
const BEHIND_WHOLES: [Behind; 25] = [
    (ROW, &[9, 0, 0], &[5, 1], Waits, ROW, &[9, 0, 0]),
    (ROW, &[9, 0, 0], &[5, 2], Opens, ROW_LEFT, &[9, 0, 0]),
    (ROW, &[9, 0, 0], &[6, 2, 1], Opens, &[1], &[0]),
    // Of a first part kept silent the arrival is not sent on, the crossing is.
    (ROW, HUSHED, &[5, 2], Waits, ROW_LEFT, HUSHED),
    (ROW, HUSHED, &[6, 2, 1], Opens, &[1], &[0]),
    (ROW, &[9, 2, 0], &[5, 1], Waits, ROW, &[9, 2, 0]),
    (ROW_LEFT, &[9, 2, 0], &[5, 0], Opens, ROW_LEFT, HUSHED),
    (TO_RIGHT, &[11], &[5, 5, 1], Waits, TO_RIGHT, &[11]),
    (TO_RIGHT, &[11], &[5, 5, 2], Opens, TO_RIGHT_LEFT, &[11]),
    (
        TO_RIGHT_LEFT,
        &[11],
        &[5, 5, 0],
        Waits,
        TO_RIGHT_LEFT,
        &[11],
    ),
    (TO_RIGHT_LEFT, &[11], &[5, 6, 0, 3], Opens, &[3, 2, 1], &[0]),
    (TO_LEFT, &[12], &[5, 1], Waits, TO_LEFT, &[12]),
    (TO_LEFT, &[12], &[5, 2], Opens, TO_LEFT_LEFT, &[12]),
    (TO_LEFT_LEFT, &[12], &[5, 0], Waits, TO_LEFT_LEFT, &[12]),
    (TO_LEFT_LEFT, &[12], &[6, 0, 5, 3], Opens, &[3, 2, 1], &[0]),
    (TO_SPREAD, &[13], &[5, 1], Waits, TO_SPREAD, &[13]),
    (TO_SPREAD, &[13], &[5, 2], Opens, TO_SPREAD_LEFT, &[13]),
    (TO_SPREAD_LEFT, &[13], &[5, 0], Waits, TO_SPREAD_LEFT, &[13]),
    (
        TO_SPREAD_LEFT,
        &[13],
        &[6, 0, 7, 1, 3],
        Opens,
        &[4, 1, 2],
        &[0],
    ),
    (SKIES, &[15, 0, 0], &[8], Waits, SKIES, &[15, 0, 0]),
    // Choose sends no mark, so the choice alone opens nothing behind it.
    (SKIES, &[15, 0, 0], &[9, 1], Waits, &[1], &[0]),
    (SKIES, &[15, 0, 0], &[10, 2], Opens, &[0], &[0]),
    (SKIES, &[15, 14, 14], &[8], Waits, SKIES, &[15, 14, 14]),
    (SKIES, &[15, 14, 14], &[9, 1], Opens, &[1], &[0]),
    // On 8 choose sends its output type's empty slice, here a complete one.
    (SKIES, HUSHED_SKIES, &[8], Opens, SKIES, HUSHED_SKIES),
];

#[test]
fn behind_every_kind() {
    let mut seen = [(0, 0); 18];
    let table = BEHIND_ANY.iter().chain(&BEHIND_PARTS);
    for (stream, before, slice, does, stream_left, before_left) in table.chain(&BEHIND_WHOLES) {
        for opener in &OPENERS {
            let (sent, left) = opener.answer(*does);
            let nodes = [&[10], *before, opener.bytes].concat();
            let nodes_left = [&[10], *before_left, left].concat();
            assert_eq!(
                fed(&patch(stream, &nodes), &section(slice)),
                Ok((section(sent), patch(stream_left, &nodes_left))),
                "type {stream:?}, nodes {nodes:?}, slice {slice:?}"
            );
        }
        let (waits, opens) = &mut seen[usize::from(before[0])];
        *(if *does == Waits { waits } else { opens }) += 1;
    }
    for (kind, (waits, opens)) in seen.iter().enumerate() {
        // Behind silent, front and the marks nothing ever waits.
        assert_eq!(*waits > 0, ![1, 14, 16, 17].contains(&kind), "kind {kind}");
        assert!(*opens > 0, "kind {kind}");
    }
}

/// A feed of a run: slice; sent, type left, nodes left.
type Step<'a> = (&'a [u8], &'a [u8], &'a [u8], &'a [u8]);

/// Expects each feed of a run, and what demand 3 says after each.
fn expect_run(stream: &[u8], nodes: &[u8], steps: &[Step]) {
    let mut file = patch(stream, nodes);
    let mut run = Run::of_files(section(stream), file.clone());
    for (slice, sent, stream_left, nodes_left) in steps {
        let left = patch(stream_left, nodes_left);
        assert_eq!(
            fed(&file, &section(slice)),
            Ok((section(sent), left.clone())),
            "type {stream:?}, nodes {nodes:?}, slice {slice:?}"
        );
        assert_eq!(run.feed(&section(slice), 513, 8_492), 0);
        run.holds();
        file = left;
    }
}

#[test]
fn under_both() {
    let sides: &[u8] = &[4, 1, 2];
    // Each gets the whole slice, so one side's arrival opens both.
    expect_run(
        sides,
        &[4, 2, 3, 0, 7],
        &[
            (&[7, 1, 3], &[7, 1, 3], sides, &[4, 2, 3, 0, 7]),
            (&[7, 2, 3], &[7, 2, 4, 0, 7], &[4, 0, 2], &[4, 1, 0, 1, 0]),
            (&[7, 0, 3], &[7, 0, 0], &[4, 0, 2], &[4, 1, 0, 1, 0]),
            (&[7, 0, 4, 0, 0], &[7, 0, 0], &[4, 0, 0], &[4, 1, 0, 1, 0]),
        ],
    );
    // Each behind a side of its own: the other's arrival opens nothing.
    let lamps: &[u8] = &[4, 10, 5, 2, 10, 6, 3, 0, 7];
    let right_open: &[u8] = &[4, 10, 5, 2, 10, 6, 1, 0];
    let both_open: &[u8] = &[4, 10, 5, 1, 0, 10, 6, 1, 0];
    expect_run(
        sides,
        lamps,
        &[
            (&[7, 1, 3], &[7, 1, 3], sides, lamps),
            (&[7, 1, 4, 0, 0], &[7, 1, 4, 0, 7], &[4, 1, 0], right_open),
            (&[7, 1, 0], &[7, 1, 0], &[4, 1, 0], right_open),
            (&[7, 2, 0], &[7, 2, 0], &[4, 0, 0], both_open),
            (&[7, 0, 0], &[7, 0, 0], &[4, 0, 0], both_open),
        ],
    );
}

#[test]
fn under_then() {
    let row: &[u8] = &[3, 1, 2];
    let nodes: &[u8] = &[9, 2, 3, 0, 7];
    let opened: &[u8] = &[9, 1, 0, 3, 0, 7];
    expect_run(
        row,
        nodes,
        &[
            (&[5, 1], &[5, 1], row, nodes),
            (&[5, 2], &[5, 2], &[3, 0, 2], opened),
            (&[5, 0], &[5, 0], &[3, 0, 2], opened),
            // The second is fed at the crossing, and waits on.
            (&[6, 0, 3], &[6, 0, 3], &[2], &[3, 0, 7]),
            (&[3], &[3], &[2], &[3, 0, 7]),
            (&[4, 0, 0], &[4, 0, 7], &[0], &[1, 0]),
            (&[0], &[0], &[0], &[1, 0]),
        ],
    );
    expect_run(
        row,
        nodes,
        &[
            (&[5, 1], &[5, 1], row, nodes),
            (&[6, 2, 4, 9, 9], &[6, 2, 4, 0, 7], &[0], &[1, 0]),
        ],
    );
    // A first part that is empty and complete opens at the first feed, uncrossed.
    let empty_first: &[u8] = &[3, 0, 1];
    let steps: &[Step] = &[(&[5, 0], &[5, 2], empty_first, &[9, 1, 0, 2])];
    expect_run(empty_first, &[9, 2, 2], steps);
    // One whose crossing is owed opens when it has come.
    let owed: &[u8] = &[3, 3, 0, 0, 1];
    expect_run(
        owed,
        &[9, 2, 2],
        &[
            (&[5, 5, 0], &[5, 1], owed, &[9, 2, 2]),
            (&[6, 6, 0, 0, 1], &[6, 2, 1], &[1], &[2]),
            (&[2], &[2], &[0], &[1, 0]),
        ],
    );
}

#[test]
fn crossed_first_parts_open() {
    for opener in &OPENERS {
        let (opening, _) = opener.answer(Opens);
        let nodes = [&[9], opener.bytes, &[2]].concat();
        // With an arrival, with nothing, and with a crossing alone.
        let table: [[&[u8]; 2]; 3] = [
            [&[3, 1, 1], &[2]],
            [&[3, 4, 0, 0, 1], &[7, 0, 0]],
            [&[3, 3, 0, 0, 1], &[6, 0, 0]],
        ];
        for [stream, first] in table {
            let slice = [&[6], first, &[1]].concat();
            let sent = [&[6], opening, &[1]].concat();
            expect_run(stream, &nodes, &[(&slice, &sent, &[1], &[2])]);
        }
    }
}

#[test]
fn under_chain() {
    for (nodes, waiting, opening, left) in [
        (&[10, 2, 2][..], &[1][..], &[2][..], &[10, 1, 0, 1, 0][..]),
        (&[10, 2, 3, 0, 7], &[3], &[4, 0, 7], &[10, 1, 0, 1, 0]),
        (&[10, 3, 0, 7, 2], &[1], &[2], &[10, 1, 0, 1, 0]),
        (&[10, 2, 0], &[1], &[2], &[10, 1, 0, 0]),
        (&[10, 3, 0, 7, 0], &[3], &[4, 0, 7], &[10, 1, 0, 0]),
    ] {
        expect_run(
            &[5, 1, 2],
            nodes,
            &[
                (&[8], waiting, &[5, 1, 2], nodes),
                (&[8], waiting, &[5, 1, 2], nodes),
                (&[9, 1], opening, &[1], left),
                (&[1], &[0], &[1], left),
                (&[2], &[0], &[0], left),
            ],
        );
    }
    // Front does not wait, and so neither does a cue behind it.
    let steps: &[Step] = &[
        (&[1], &[6, 0, 1], &[1], &[10, 2, 0]),
        (&[2], &[2], &[0], &[10, 1, 0, 0]),
    ];
    expect_run(&[1], &[10, 2, 14], steps);
    let (fronted, crossed): (&[u8], &[u8]) = (&[10, 2, 10, 14, 2], &[10, 2, 10, 0, 1, 0]);
    expect_run(
        &[1],
        fronted,
        &[
            (&[1], &[2], &[1], crossed),
            (&[2], &[0], &[0], &[10, 1, 0, 10, 0, 1, 0]),
        ],
    );
}

#[test]
fn under_choose() {
    let skies: &[u8] = &[5, 1, 2];
    // The chosen part's slice is judged, which the mark is no part of.
    expect_run(
        skies,
        &[15, 2, 2],
        &[
            (&[8], &[1], skies, &[15, 2, 2]),
            (&[9, 1], &[1], &[1], &[2]),
            (&[1], &[1], &[1], &[2]),
            (&[2], &[2], &[0], &[1, 0]),
            (&[0], &[0], &[0], &[1, 0]),
        ],
    );
    expect_run(
        skies,
        &[15, 3, 0, 7, 3, 0, 8],
        &[
            (&[8], &[3], skies, &[15, 3, 0, 7, 3, 0, 8]),
            (&[10, 3], &[3], &[2], &[3, 0, 8]),
            (&[4, 0, 7], &[4, 0, 8], &[0], &[1, 0]),
        ],
    );
    // A part that is empty opens with the choice, and not before it.
    let empty_sky: &[u8] = &[5, 0, 1];
    expect_run(
        empty_sky,
        &[15, 2, 2],
        &[
            (&[8], &[1], empty_sky, &[15, 2, 2]),
            (&[9, 0], &[2], &[0], &[1, 0]),
        ],
    );
}

#[test]
fn the_type_left_is_the_one_compared() {
    // After the crossing the empty slice is 1, not 5 1.
    expect_run(
        &[3, 1, 1],
        &[9, 0, 2],
        &[
            (&[6, 2, 1], &[6, 2, 1], &[1], &[2]),
            (&[1], &[1], &[1], &[2]),
            (&[2], &[2], &[0], &[1, 0]),
        ],
    );
    // After the cue has come it is 5 0, not 5 1; second sends on neither.
    let (row, second): (&[u8], &[u8]) = (&[3, 1, 2], &[10, 8, 2]);
    expect_run(
        row,
        second,
        &[
            (&[5, 2], &[1], &[3, 0, 2], second),
            (&[5, 0], &[1], &[3, 0, 2], second),
            (&[6, 0, 3], &[1], &[2], &[10, 0, 2]),
            (&[4, 0, 0], &[2], &[0], &[10, 0, 1, 0]),
        ],
    );
}

#[test]
fn first_arrivals_in_two_slices() {
    let open: &[u8] = &[1, 0];
    // The earlier half opens, whichever side it is.
    let steps: &[Step] = &[
        (&[7, 2, 3], &[2], &[4, 0, 2], open),
        (&[7, 0, 4, 0, 0], &[0], &[4, 0, 0], open),
    ];
    expect_run(&[4, 1, 2], &[2], steps);
    let steps: &[Step] = &[
        (&[7, 1, 4, 0, 0], &[2], &[4, 1, 0], open),
        (&[7, 2, 0], &[0], &[4, 0, 0], open),
    ];
    expect_run(&[4, 1, 2], &[2], steps);
    // A first part and its crossing, a mark and what is in it.
    let steps: &[Step] = &[
        (&[5, 2], &[2], ROW_LEFT, open),
        (&[6, 0, 2], &[0], &[0], open),
    ];
    expect_run(ROW, &[2], steps);
    let steps: &[Step] = &[(&[9, 1], &[2], &[1], open), (&[2], &[0], &[0], open)];
    expect_run(SKIES, &[2], steps);
}

#[test]
fn first_arrivals_of_which_half_is_kept_back() {
    let right: &[u8] = &[10, 6, 2];
    let steps: &[Step] = &[
        (&[7, 2, 3], &[1], &[4, 0, 2], right),
        (&[7, 0, 4, 0, 0], &[2], &[4, 0, 0], &[10, 6, 1, 0]),
    ];
    expect_run(&[4, 1, 2], right, steps);
    let hushed: &[u8] = &[10, 9, 1, 0, 0, 2];
    let steps: &[Step] = &[
        (&[5, 2], &[1], ROW_LEFT, hushed),
        (&[6, 0, 1], &[2], &[1], &[10, 0, 1, 0]),
    ];
    expect_run(ROW, hushed, steps);
}

#[test]
fn many_empty_slices_before_the_first_arrival() {
    // Type, its empty slice, another, and the type that leaves.
    let table: [[&[u8]; 4]; 6] = [
        [&[1], &[1], &[2], &[0]],
        [&[3, 0, 0], &[5, 0], &[6, 0, 0], &[0]],
        [&[3, 1, 2], &[5, 1], &[6, 2, 3], &[2]],
        [&[4, 0, 2], &[7, 0, 3], &[7, 0, 4, 0, 0], &[4, 0, 0]],
        [&[5, 1, 2], &[8], &[10, 3], &[2]],
        [
            &[4, 5, 1, 2, 3, 0, 1],
            &[7, 8, 5, 0],
            &[7, 8, 6, 0, 1],
            &[4, 5, 1, 2, 1],
        ],
    ];
    for [stream, empty, arrival, stream_left] in table {
        for opener in &OPENERS {
            let start = patch(stream, opener.bytes);
            let (waiting, _) = opener.answer(Waits);
            for _ in 0..1_000 {
                let answer = fed(&start, &section(empty));
                assert_eq!(answer, Ok((section(waiting), start.clone())), "{stream:?}");
            }
            let (opening, left) = opener.answer(Opens);
            let answer = fed(&start, &section(arrival));
            assert_eq!(answer, Ok((section(opening), patch(stream_left, left))));
            let mut steps: Vec<Step> = vec![(empty, waiting, stream, opener.bytes); 50];
            steps.push((arrival, opening, stream_left, left));
            expect_run(stream, opener.bytes, &steps);
        }
    }
}

#[test]
fn once_sent_no_more() {
    let stream: &[u8] = &[4, 3, 1, 1, 5, 1, 2];
    for opener in &OPENERS {
        let (opening, left) = opener.answer(Opens);
        expect_run(
            stream,
            opener.bytes,
            &[
                (&[7, 5, 2, 8], opening, &[4, 3, 0, 1, 5, 1, 2], left),
                (&[7, 5, 0, 8], &[0], &[4, 3, 0, 1, 5, 1, 2], left),
                (&[7, 6, 0, 1, 8], &[0], &[4, 1, 5, 1, 2], left),
                (&[7, 1, 10, 3], &[0], &[4, 1, 2], left),
                (&[7, 1, 4, 0, 9], &[0], &[4, 1, 0], left),
                (&[7, 2, 0], &[0], &[4, 0, 0], left),
                (&[7, 0, 0], &[0], &[4, 0, 0], left),
            ],
        );
        // The output type left is the whole cue or level, then empty.
        let waiting = answered(|buffer| check(&patch(&[1], opener.bytes), buffer));
        assert_eq!(
            waiting,
            Ok(section(&[if opener.bytes == [2] { 1 } else { 2 }]))
        );
        let opened = answered(|buffer| check(&patch(&[1], left), buffer));
        assert_eq!(opened, Ok(section(&[0])));
    }
}

#[test]
fn refused_feeds_open_nothing() {
    let mut run = Run::of_files(section(&[1]), patch(&[1], &[2]));
    // Waiting leaves a patch file of 16 bytes, opening one of 17.
    assert_eq!(run.feed(&section(&[2]), 3, 16), 20);
    assert_eq!(run.feed(&section(&[1]), 3, 15), 20);
    assert_eq!(run.feed(&section(&[1]), 3, 16), 0);
    run.holds();
    assert_eq!(run.feed(&section(&[2]), 2, 17), 20);
    assert_eq!(run.feed(&with(section(&[2]), &[0]), 3, 17), 13);
    assert_eq!(run.feed(&section(&[0]), 3, 17), 14);
    assert_eq!(run.feed(&section(&[1]), 3, 16), 0);
    run.holds();
    assert_eq!(run.feed(&section(&[2]), 3, 17), 0);
    run.holds();
}
