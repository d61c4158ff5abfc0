//! Every way in which a file can be damaged.

#![allow(clippy::ptr_arg, reason = "the damages share one signature")]

use crate::formats::files::{count, section, set_count};
use crate::formats::kinds::type_kind::{BESIDE, CUE, EITHER, SEQUENCE};
use crate::formats::kinds::{node_kind, slice_kind, type_kind};
use crate::formats::preorder::slice_end;
use crate::generators::random::Random;
use crate::generators::types::{write_type, Style, MOST_FORKS};

/// The kinds of the trees in a file.
#[derive(Clone, Copy, Debug)]
pub struct Kinds {
    /// Kinds below this one are listed.
    listed: u8,
    /// No request lists a kind from this one up.
    never: u8,
}

/// The kinds of types.
pub const TYPE_KINDS: Kinds = Kinds {
    listed: type_kind::LISTED,
    never: 19,
};
/// The kinds of nodes.
pub const NODE_KINDS: Kinds = Kinds {
    listed: node_kind::LISTED,
    never: 19,
};
/// The kinds of slices.
pub const SLICE_KINDS: Kinds = Kinds {
    listed: slice_kind::LISTED,
    never: 15,
};

impl Kinds {
    /// One of the listed kinds.
    pub fn listed(self, random: &mut Random) -> u8 {
        random.below(usize::from(self.listed)) as u8
    }

    /// A kind that is not listed.
    fn unlisted(self, random: &mut Random) -> u8 {
        random.pick(&[self.never, self.never + 1, 128, 200, 254, 255])
    }
}

type Damage = fn(&mut Random, &mut Vec<u8>, Kinds);

const DAMAGES: [Damage; 16] = [
    cut,
    cut_and_counted,
    flip_bit,
    set_byte,
    add_behind,
    add_and_count,
    insert,
    insert_and_count,
    remove,
    remove_and_count,
    wrong_count,
    unlisted_kind,
    misplaced_kind,
    taken_back,
    chosen_otherwise,
    emptied,
];

/// Damages a file in one way, seldom in two.
pub fn damage(random: &mut Random, file: &mut Vec<u8>, kinds: Kinds) {
    if random.below(300) == 0 {
        lengthen(random, file);
        return;
    }
    random.pick(&DAMAGES)(random, file, kinds);
    if random.chance(10) {
        random.pick(&DAMAGES)(random, file, kinds);
    }
}

/// A section of a few bytes that look like kinds.
pub fn few_bytes(random: &mut Random, kinds: Kinds) -> Vec<u8> {
    let length = random.below(8);
    let contents: Vec<u8> = (0..length).map(|_| kinds.listed(random)).collect();
    section(&contents)
}

/// A place in the contents, if there are any.
fn place(random: &mut Random, file: &[u8]) -> Option<usize> {
    (file.len() > 2).then(|| random.between(2, file.len() - 1))
}

fn count_again(file: &mut [u8]) {
    set_count(file, file.len().saturating_sub(2));
}

fn cut(random: &mut Random, file: &mut Vec<u8>, _: Kinds) {
    file.truncate(random.below(file.len() + 1));
}

fn cut_and_counted(random: &mut Random, file: &mut Vec<u8>, kinds: Kinds) {
    cut(random, file, kinds);
    count_again(file);
}

fn flip_bit(random: &mut Random, file: &mut Vec<u8>, _: Kinds) {
    if !file.is_empty() {
        let at = random.below(file.len());
        file[at] ^= 1 << random.below(8);
    }
}

fn set_byte(random: &mut Random, file: &mut Vec<u8>, _: Kinds) {
    if !file.is_empty() {
        let at = random.below(file.len());
        file[at] = random.byte();
    }
}

fn add_behind(random: &mut Random, file: &mut Vec<u8>, kinds: Kinds) {
    for _ in 0..random.between(1, 3) {
        let kind = kinds.listed(random);
        file.push(random.pick(&[kind, 200, 255]));
    }
}

fn add_and_count(random: &mut Random, file: &mut Vec<u8>, kinds: Kinds) {
    add_behind(random, file, kinds);
    count_again(file);
}

fn insert(random: &mut Random, file: &mut Vec<u8>, kinds: Kinds) {
    let at = random.below(file.len() + 1);
    file.insert(at, kinds.listed(random));
}

fn insert_and_count(random: &mut Random, file: &mut Vec<u8>, kinds: Kinds) {
    insert(random, file, kinds);
    count_again(file);
}

fn remove(random: &mut Random, file: &mut Vec<u8>, _: Kinds) {
    if !file.is_empty() {
        file.remove(random.below(file.len()));
    }
}

fn remove_and_count(random: &mut Random, file: &mut Vec<u8>, kinds: Kinds) {
    remove(random, file, kinds);
    count_again(file);
}

fn wrong_count(random: &mut Random, file: &mut Vec<u8>, _: Kinds) {
    let right = count(file);
    let any = random.below(65_536);
    let wrong = random.pick(&[
        right + 1,
        right.saturating_sub(1),
        0,
        65_535,
        right + 256,
        any,
    ]);
    set_count(file, wrong);
}

fn unlisted_kind(random: &mut Random, file: &mut Vec<u8>, kinds: Kinds) {
    if let Some(at) = place(random, file) {
        file[at] = kinds.unlisted(random);
    }
}

fn misplaced_kind(random: &mut Random, file: &mut Vec<u8>, kinds: Kinds) {
    if let Some(at) = place(random, file) {
        file[at] = kinds.listed(random);
    }
}

/// What a slice of this kind was before it came or was chosen.
fn before(kind: u8) -> Option<u8> {
    match kind {
        slice_kind::CUE_COME => Some(slice_kind::CUE_AWAITED),
        slice_kind::LEVEL_COME => Some(slice_kind::LEVEL_AWAITED),
        slice_kind::FIRST_CHOSEN | slice_kind::SECOND_CHOSEN => Some(slice_kind::NONE_CHOSEN),
        _ => None,
    }
}

/// What had come or was chosen has not: where a crossed first part has to be complete, that is a
/// fault. Often a second fault lies close behind it, so that one sees which of the two is answered.
fn taken_back(random: &mut Random, file: &mut Vec<u8>, _: Kinds) {
    let start = random.below(file.len() + 1).max(2);
    let come = |at| Some((at, before(file[at])?));
    let Some((at, awaited)) = (start..file.len()).find_map(come) else {
        return;
    };
    let end = slice_end(file, at);
    file.splice(at..end, [awaited]);
    let behind = at + random.between(1, 2);
    match random.below(3) {
        0 => file.truncate(behind),
        1 if behind < file.len() => file[behind] = 200,
        _ => {}
    }
    count_again(file);
}

/// The other part is chosen, and the slice is that of the one before.
fn chosen_otherwise(random: &mut Random, file: &mut Vec<u8>, _: Kinds) {
    let start = random.below(file.len() + 1).max(2);
    let marks = [slice_kind::FIRST_CHOSEN, slice_kind::SECOND_CHOSEN];
    if let Some(at) = (start..file.len()).find(|at| marks.contains(&file[*at])) {
        file[at] = marks[usize::from(file[at] == marks[0])];
    }
}

fn emptied(_: &mut Random, file: &mut Vec<u8>, _: Kinds) {
    file.clear();
}

/// More bytes than a section can count, as many as it can, or a mebibyte; sometimes all counted.
fn lengthen(random: &mut Random, file: &mut Vec<u8>) {
    let filler = random.pick(&[0, 1, 3, 4, 5, 7, 9, 200]);
    file.resize(random.pick(&[65_536, 65_537, 65_538, 1 << 20]), filler);
    if random.chance(50) {
        set_count(file, 65_535);
    }
}

/// A type file about the limit of 255 nodes: too large, cut there, or forks and nothing more.
pub fn type_about_the_limit(random: &mut Random) -> Vec<u8> {
    let mut tree = Vec::new();
    match random.below(5) {
        0 => tree = vec![random.pick(&[SEQUENCE, BESIDE, EITHER]); forks_alone(random)],
        1 => {
            tree = [BESIDE, CUE].repeat(MOST_FORKS);
            let last = random.pick(&[CUE, SEQUENCE, BESIDE, EITHER, 200]);
            tree.push(last);
            tree.truncate(random.between(252, 255));
        }
        2 => {
            tree = [BESIDE, CUE].repeat(MOST_FORKS);
            tree.extend([random.pick(&[CUE, BESIDE]), random.pick(&[CUE, 200])]);
        }
        _ => {
            let style = Style::any(random);
            let forks = random.pick(&[MOST_FORKS, MOST_FORKS + 1, MOST_FORKS + 2, 200]);
            write_type(random, &style, forks, &mut tree);
            if random.chance(50) {
                tree.truncate(random.between(250, 260));
            }
        }
    }
    section(&tree)
}

fn forks_alone(random: &mut Random) -> usize {
    random.pick(&[126, 127, 128, 129, 253, 254, 255, 256, 257, 300])
}
