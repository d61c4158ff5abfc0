//! Counts by other rules than M-104's, wrong in one way each: to see that calls find it.

use crate::calls::call::{Call, Operation};
use crate::calls::counts::Counts;
use crate::formats::fault;
use crate::formats::files::{contents, MOST_ARRIVALS};
use crate::formats::kinds::slice_kind::{CROSSED, CUE_COME, LEVEL_COME};
use crate::formats::preorder::{
    arrivals, crossed_arrivals, is_arrival, is_choice, slice_kinds, slice_roots,
};

/// What a rule can look at: the number of an answer, the tree of the slice, and that of the slice
/// sent, if one was.
#[derive(Clone, Copy, Debug)]
struct Seen<'a> {
    number: u32,
    slice: &'a [u8],
    sent: Option<&'a [u8]>,
}

impl Seen<'_> {
    /// What is counted in both slices alike; nothing on a refusal.
    fn by(self, count: fn(&[u8]) -> u32) -> Counts {
        if self.number != fault::ACCEPTED {
            return Counts::default();
        }
        Counts {
            arrived: count(self.slice),
            sent: self.sent.map_or(0, count),
        }
    }

    /// The right counts, but where the number is one of these that of the slice, as far as it goes.
    fn also_refused(self, numbers: &[u32]) -> Counts {
        if numbers.contains(&self.number) {
            Counts {
                arrived: arrivals(self.slice),
                sent: 0,
            }
        } else {
            self.by(arrivals)
        }
    }
}

/// How many nodes of a slice are of such a kind.
fn of_kind(tree: &[u8], is_meant: fn(u8) -> bool) -> u32 {
    let kinds = slice_kinds(tree).into_iter();
    kinds.filter(|kind| is_meant(*kind)).count() as u32
}

fn but_levels_of_0(tree: &[u8]) -> u32 {
    let roots = slice_roots(tree).into_iter();
    let of_0 = roots.filter(|at| tree[*at..].starts_with(&[LEVEL_COME, 0, 0]));
    arrivals(tree) - of_0.count() as u32
}

/// What is counted.
#[derive(Clone, Copy, Debug)]
pub struct Rule {
    pub name: &'static str,
    counts: fn(Seen) -> Counts,
}

const fn rule(name: &'static str, counts: fn(Seen) -> Counts) -> Rule {
    Rule { name, counts }
}

impl Rule {
    /// M-104's own.
    pub const RIGHT: Rule = rule("right", |seen| seen.by(arrivals));

    /// The wrong ones.
    pub const WRONG: [Rule; 13] = [
        rule("bytes_of_values_counted_as_kinds", |seen| {
            seen.by(|tree| tree.iter().filter(|byte| is_arrival(**byte)).count() as u32)
        }),
        rule("crossing_counted", |seen| {
            seen.by(|tree| of_kind(tree, |kind| is_arrival(kind) || kind == CROSSED))
        }),
        rule("choice_counted", |seen| {
            seen.by(|tree| of_kind(tree, |kind| is_arrival(kind) || is_choice(kind)))
        }),
        rule("only_cues_counted", |seen| {
            seen.by(|tree| of_kind(tree, |kind| kind == CUE_COME))
        }),
        rule("only_levels_counted", |seen| {
            seen.by(|tree| of_kind(tree, |kind| kind == LEVEL_COME))
        }),
        rule("level_of_0_not_counted", |seen| seen.by(but_levels_of_0)),
        rule("crossed_first_part_forgotten", |seen| {
            seen.by(|tree| arrivals(tree) - crossed_arrivals(tree))
        }),
        rule("most_is_one_less", |seen| {
            seen.by(|tree| arrivals(tree).min(MOST_ARRIVALS - 1))
        }),
        rule("sent_counted_from_the_input", |seen| Counts {
            sent: seen.sent.map_or(0, |_| arrivals(seen.slice)),
            ..seen.by(arrivals)
        }),
        rule("arrived_counted_from_the_output", |seen| {
            let slice = seen.sent.unwrap_or(seen.slice);
            Seen { slice, ..seen }.by(arrivals)
        }),
        rule("counted_up_to_a_fault", |seen| {
            seen.also_refused(&fault::SLICE_NUMBERS)
        }),
        rule("counted_without_room", |seen| {
            seen.also_refused(&[fault::NO_ROOM])
        }),
        rule("counted_past_the_greatest_total", |seen| {
            seen.also_refused(&[fault::TOTAL_TOO_LARGE])
        }),
    ];

    /// Whether a call tells this rule from what the second interpreter answers.
    pub fn is_found_by(self, call: &Call) -> bool {
        let [_, slice] = call.files.as_slice() else {
            return false;
        };
        if !matches!(call.operation, Operation::Admit | Operation::Feed) {
            return false;
        }
        let (answer, lent) = call.second_outcome();
        let sent = lent.first().filter(|_| answer.number == fault::ACCEPTED);
        let seen = Seen {
            number: answer.number,
            slice: contents(slice),
            sent: sent.map(|output| contents(output)),
        };
        (self.counts)(seen) != answer.counts
    }
}
