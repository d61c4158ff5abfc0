//! Random calls of the six operations: type-directed, most of them accepted, and damaged ones.

use crate::calls::call::{Buffer, Call, Operation};
use crate::formats::files::section;
use crate::formats::kinds::type_kind::SEQUENCE;
use crate::formats::kinds::{node_kind, slice_kind};
use crate::generators::damage::{damage, few_bytes, type_about_the_limit, SLICE_KINDS, TYPE_KINDS};
use crate::generators::feeds::feed_files;
use crate::generators::patch_damage::damage_patch;
use crate::generators::patches::any_patch;
use crate::generators::random::Random;
use crate::generators::sides::type_with_sides;
use crate::generators::slices::{slice_at, slice_of, Pace};
use crate::generators::types::{forks, write_type, Style, MOST_FORKS};

/// A buffer that is longer than any answer has so many bytes more.
const TOO_LONG: usize = 500;

/// The operations that are drawn equally often.
const OFTEN: [Operation; 5] = [
    Operation::Check,
    Operation::Admit,
    Operation::Left,
    Operation::Join,
    Operation::Feed,
];

/// The chance, in a hundred, of a call of Longest. It is drawn less often: what it writes is held
/// to a hundred other slices, which takes as long as many calls.
const LONGEST: usize = 5;

/// A stream of calls that follows from a seed.
#[derive(Debug)]
pub struct Calls {
    random: Random,
    /// Calls made from an earlier one by going through all places, still to come.
    sweep: Vec<Call>,
}

impl Calls {
    /// The calls of a seed.
    pub fn new(seed: u64) -> Self {
        Calls {
            random: Random::new(seed),
            sweep: Vec::new(),
        }
    }

    fn fresh(&mut self) -> Call {
        let mut call = accepted(&mut self.random);
        if self.random.below(2000) == 0 {
            self.sweep = sweep(&call);
        }
        if self.random.chance(35) {
            spoil(&mut self.random, &mut call);
            if self.random.chance(15) {
                spoil(&mut self.random, &mut call);
            }
        }
        lend(&mut self.random, &mut call);
        call
    }
}

impl Iterator for Calls {
    type Item = Call;

    fn next(&mut self) -> Option<Call> {
        Some(self.sweep.pop().unwrap_or_else(|| self.fresh()))
    }
}

/// A call whose files are in order, with a buffer that is long enough.
fn accepted(random: &mut Random) -> Call {
    let operation = if random.chance(LONGEST) {
        Operation::Longest
    } else {
        random.pick(&OFTEN)
    };
    let mut files = match operation {
        Operation::Check => vec![any_patch(random)],
        Operation::Feed => feed_files(random).to_vec(),
        Operation::Longest => vec![section(&type_for_longest(random))],
        _ => stream_files(random).to_vec(),
    };
    files.truncate(operation.files().len());
    Call::roomy(operation, files)
}

/// The tree of any type.
fn any_type(random: &mut Random) -> Vec<u8> {
    let style = Style::any(random);
    let forks = forks(random);
    type_of_style(random, &style, forks)
}

fn type_of_style(random: &mut Random, style: &Style, forks: usize) -> Vec<u8> {
    let mut tree = Vec::new();
    write_type(random, style, forks, &mut tree);
    tree
}

/// The tree of a type: any, of the greatest length, with the deepest choices, or with choices
/// between sides that are about equally long.
fn type_for_longest(random: &mut Random) -> Vec<u8> {
    let style = match random.below(20) {
        0..=8 => return any_type(random),
        9 => Style::levels(random),
        10 => Style::nested(random),
        _ => return type_with_sides(random),
    };
    type_of_style(random, &style, MOST_FORKS)
}

/// The tree of any type, new or what an earlier slice leaves of one with a sequence: if nothing is
/// left to come of its first part, it is crossed without an arrival.
fn type_in_a_stream(random: &mut Random) -> Vec<u8> {
    let tree = any_type(random);
    if tree.contains(&SEQUENCE) && random.chance(30) {
        let gentle = Pace::gentle(random);
        let pace = random.pick(&[gentle, Pace::UNCROSSED]);
        return slice_at(random, pace, &tree).left;
    }
    tree
}

/// The files of a type, of a slice of it, and of a slice of what that one leaves.
fn stream_files(random: &mut Random) -> [Vec<u8>; 3] {
    let tree = type_in_a_stream(random);
    let first = slice_of(random, &tree);
    let second = slice_of(random, &first.left);
    [
        section(&tree),
        section(&first.slice),
        section(&second.slice),
    ]
}

/// Puts a fault in one file.
fn spoil(random: &mut Random, call: &mut Call) {
    let which = random.below(call.files.len());
    if which == 0 && call.operation.takes_patch() {
        damage_patch(random, &mut call.files[0]);
        return;
    }
    let other = call.files[random.below(call.files.len())].clone();
    let file = &mut call.files[which];
    match random.below(12) {
        0..=1 if which == 0 => *file = type_about_the_limit(random),
        0 => *file = few_bytes(random, SLICE_KINDS),
        // The slice of another type, or the other slice: its kinds belong elsewhere.
        1 => *file = stream_files(random)[1].clone(),
        2 => *file = few_bytes(random, TYPE_KINDS),
        3 => *file = other,
        _ => damage(
            random,
            file,
            if which == 0 { TYPE_KINDS } else { SLICE_KINDS },
        ),
    }
}

/// Chooses the buffers.
fn lend(random: &mut Random, call: &mut Call) {
    let buffers = call.operation.buffers();
    call.lent = (call.needs().into_iter().zip(buffers))
        .map(|(needs, buffer)| length(random, needs, buffer))
        .collect();
}

/// Exact, a little short, very short, of the greatest size, or far too long.
fn length(random: &mut Random, needs: usize, buffer: &Buffer) -> usize {
    match random.below(20) {
        0..=7 => needs,
        8..=11 => buffer.longest + TOO_LONG,
        12 => needs + 1,
        13..=14 => buffer.longest,
        15 => needs.saturating_sub(1),
        16 => needs.saturating_sub(2),
        17 => random.pick(&[0, 1, 2]),
        18 => random.below(520),
        _ => random.below(2 * needs + 1),
    }
}

/// The call cut at every length of every file (at some of a very long one), with every listed kind
/// at every place of a short file, and with every length of a buffer up to two bytes more than it
/// needs (some of a very long one).
fn sweep(call: &Call) -> Vec<Call> {
    let mut calls = Vec::new();
    for (which, file) in call.files.iter().enumerate() {
        for length in (0..file.len()).step_by(1 + file.len() / 1000) {
            let mut cut = call.clone();
            cut.files[which].truncate(length);
            calls.push(cut);
        }
        if file.len() < 40 {
            calls.extend(kinds_at_every_place(call, which));
        }
    }
    for (which, needs) in call.needs().into_iter().enumerate() {
        for length in (0..=needs + 2).step_by(1 + needs / 1000) {
            let mut lent = call.clone();
            lent.lent[which] = length;
            calls.push(lent);
        }
    }
    calls
}

fn kinds_at_every_place(call: &Call, which: usize) -> Vec<Call> {
    let mut calls = Vec::new();
    let patch = which == 0 && call.operation.takes_patch();
    let listed = if patch {
        node_kind::LISTED
    } else {
        slice_kind::LISTED
    };
    for at in 0..call.files[which].len() {
        for kind in (0..listed).chain([19, 200, 255]) {
            let mut changed = call.clone();
            changed.files[which][at] = kind;
            calls.push(changed);
        }
    }
    calls
}
