//! Random types for Longest: with choices between sides that are about equally long, or just as
//! long, written as the bytes of their trees. They are grown from the length that their longest
//! slice is to have; how many nodes that takes depends on where the levels are.

use second_interpreter::Type;

use crate::formats::kinds::type_kind::{BESIDE, CUE, EITHER, EMPTY, LEVEL, SEQUENCE};
use crate::generators::random::Random;
use crate::generators::types::Shape;

/// What such a type is like; the chances are in a hundred.
#[derive(Clone, Copy, Debug)]
struct Style {
    shape: Shape,
    choices: usize,
    /// Of three bytes, where there is room for a level or for a fork.
    levels: usize,
    /// Whether every choice has the next one in a side; the other side has none if it can.
    nested: bool,
}

impl Style {
    fn any(random: &mut Random) -> Self {
        let nested = random.chance(30);
        Style {
            shape: random.pick(&Shape::ALL),
            choices: if nested {
                100
            } else {
                random.pick(&[0, 10, 30, 60])
            },
            levels: random.pick(&[0, 50, 90]),
            nested,
        }
    }

    /// How many bytes the longest slice has. The sides of a nest grow with it, so it stays short.
    fn bytes(self, random: &mut Random) -> usize {
        let most = if self.nested {
            24
        } else {
            random.pick(&[6, 20, 60, 120, 500])
        };
        random.between(2, most)
    }
}

/// A type within the limit of its nodes.
pub fn type_with_sides(random: &mut Random) -> Vec<u8> {
    loop {
        let style = Style::any(random);
        let bytes = style.bytes(random);
        let mut writer = Writer {
            random,
            style,
            tree: Vec::new(),
        };
        if writer.random.chance(50) {
            writer.either(bytes - 1, style.choices);
        } else {
            writer.write(bytes, style.choices);
        }
        if writer.tree.len() <= Type::LIMIT {
            return writer.tree;
        }
    }
}

struct Writer<'a> {
    random: &'a mut Random,
    style: Style,
    tree: Vec<u8>,
}

impl Writer<'_> {
    /// Writes a type whose longest slice has so many bytes, with this chance of a choice. A tree
    /// that has passed the limit is not written on.
    fn write(&mut self, bytes: usize, choices: usize) {
        if self.tree.len() > Type::LIMIT {
            return;
        }
        match bytes {
            1 => self.tree.push(self.random.pick(&[EMPTY, CUE])),
            // A leaf has one byte or three, and a fork with two parts has at least three.
            2 => self.either(1, choices),
            _ if self.random.chance(choices) => self.either(bytes - 1, choices),
            3 if self.random.chance(self.style.levels) => self.tree.push(LEVEL),
            _ => {
                self.tree.push(self.random.pick(&[SEQUENCE, BESIDE]));
                let first = 1 + self.style.shape.in_first(self.random, bytes - 3);
                self.write(first, choices);
                self.write(bytes - 1 - first, choices);
            }
        }
    }

    /// Writes a choice whose longer side has so many bytes.
    fn either(&mut self, longer: usize, choices: usize) {
        self.tree.push(EITHER);
        let any = self.random.between(1, longer);
        let one_less = longer.saturating_sub(1).max(1);
        let other = self.random.pick(&[longer, longer, one_less, any]);
        let mut sides = [longer, other];
        if self.random.chance(50) {
            sides.reverse();
        }
        let mut choices = [choices; 2];
        if self.style.nested {
            choices[usize::from(self.nests_in_first())] = 0;
        }
        self.write(sides[0], choices[0]);
        self.write(sides[1], choices[1]);
    }

    fn nests_in_first(&mut self) -> bool {
        match self.style.shape {
            Shape::DeepLeft => true,
            Shape::DeepRight => false,
            _ => self.random.chance(50),
        }
    }
}
