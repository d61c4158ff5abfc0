//! Random types, written as the bytes of their trees.

use crate::formats::kinds::type_kind::{BESIDE, CUE, EITHER, EMPTY, LEVEL, SEQUENCE};
use crate::generators::random::Random;

/// A type of 255 nodes has so many forks.
pub const MOST_FORKS: usize = 127;

/// How often the parts of an either are alike, unless a style says otherwise.
const ALIKE: usize = 20;

/// Which way a tree grows.
#[derive(Clone, Copy, Debug, PartialEq, Eq)]
pub enum Shape {
    DeepLeft,
    DeepRight,
    Balanced,
    /// Many small parts along the right.
    Wide,
    Random,
}

impl Shape {
    /// Every shape.
    pub const ALL: [Shape; 5] = [
        Shape::DeepLeft,
        Shape::DeepRight,
        Shape::Balanced,
        Shape::Wide,
        Shape::Random,
    ];

    /// How many of the forks below a fork are in its first part.
    pub fn in_first(self, random: &mut Random, forks: usize) -> usize {
        match self {
            Shape::DeepLeft => forks,
            Shape::DeepRight => 0,
            Shape::Balanced => forks / 2,
            Shape::Wide => random.below(3).min(forks),
            Shape::Random => random.below(forks + 1),
        }
    }
}

/// What the types of one call are like; the chances are in a hundred.
#[derive(Clone, Copy, Debug)]
pub struct Style {
    shape: Shape,
    choices: usize,
    /// That the parts of an either are alike where they can be.
    alike: usize,
    /// Among the forks that are no choice.
    sequences: usize,
    empties: usize,
    levels: usize,
}

impl Style {
    /// Any style.
    pub fn any(random: &mut Random) -> Self {
        Style {
            shape: random.pick(&Shape::ALL),
            choices: random.pick(&[0, 0, 10, 30, 100]),
            alike: ALIKE,
            sequences: random.pick(&[0, 20, 50, 80, 100]),
            empties: random.pick(&[0, 10, 50]),
            levels: random.pick(&[0, 50, 100]),
        }
    }

    /// Much follows one another, and much is awaited.
    pub fn following(random: &mut Random) -> Self {
        Style {
            shape: random.pick(&Shape::ALL),
            choices: random.pick(&[0, 0, 10, 20]),
            alike: ALIKE,
            sequences: random.pick(&[50, 70, 90]),
            empties: random.pick(&[0, 0, 10]),
            levels: random.pick(&[0, 50, 100]),
        }
    }

    /// With many choices, each between parts in which much follows one another.
    pub fn choosing(random: &mut Random) -> Self {
        Style {
            choices: random.pick(&[40, 60]),
            ..Style::following(random)
        }
    }

    /// Choices one inside another, as deep as the forks go: parts that are alike would share them.
    pub fn nested(random: &mut Random) -> Self {
        Style {
            shape: random.pick(&[Shape::DeepLeft, Shape::DeepRight]),
            choices: random.pick(&[90, 100]),
            alike: 0,
            ..Style::any(random)
        }
    }

    /// Without choices, and with a cue or a level at every leaf: of its size it brings the most.
    pub fn full(random: &mut Random) -> Self {
        Style {
            choices: 0,
            empties: 0,
            ..Style::any(random)
        }
    }

    /// The same with a level at every leaf: of its size it has the longest slice.
    pub fn levels(random: &mut Random) -> Self {
        Style {
            levels: 100,
            ..Style::full(random)
        }
    }

    /// Nearly all side by side: of its size it has the longest empty slice.
    pub fn lanes(random: &mut Random) -> Self {
        Style {
            choices: 0,
            sequences: random.pick(&[0, 10]),
            ..Style::any(random)
        }
    }

    fn fork(&self, random: &mut Random) -> u8 {
        if random.chance(self.choices) {
            EITHER
        } else if random.chance(self.sequences) {
            SEQUENCE
        } else {
            BESIDE
        }
    }

    fn leaf(&self, random: &mut Random) -> u8 {
        if random.chance(self.empties) {
            EMPTY
        } else if random.chance(self.levels) {
            LEVEL
        } else {
            CUE
        }
    }
}

/// Writes a type with so many forks, and one leaf more than that.
pub fn write_type(random: &mut Random, style: &Style, forks: usize, out: &mut Vec<u8>) {
    if forks == 0 {
        out.push(style.leaf(random));
        return;
    }
    let kind = style.fork(random);
    out.push(kind);
    if kind == EITHER && forks % 2 == 1 && random.chance(style.alike) {
        let begin = out.len();
        write_type(random, style, forks / 2, out);
        out.extend_from_within(begin..);
        return;
    }
    let first = style.shape.in_first(random, forks - 1);
    write_type(random, style, first, out);
    write_type(random, style, forks - 1 - first, out);
}

/// How many forks the next type has: mostly few, often as many as the limit allows.
pub fn forks(random: &mut Random) -> usize {
    match random.below(20) {
        0..=9 => random.below(6),
        10..=14 => random.below(32),
        15..=16 => random.below(MOST_FORKS + 1),
        17 => MOST_FORKS - 1,
        _ => MOST_FORKS,
    }
}
