//! The types and slices of the rows, written as the bytes of their trees; nothing here is random.

use std::ops::Range;

use comparison::formats::kinds::slice_kind;
use comparison::formats::kinds::type_kind::{BESIDE, CUE, EITHER, EMPTY, LEVEL, SEQUENCE};
use comparison::formats::preorder::type_end;

/// Which way a tree grows.
#[derive(Clone, Copy, Debug, PartialEq, Eq)]
pub enum Shape {
    DeepLeft,
    DeepRight,
    Balanced,
}

impl Shape {
    /// Every shape, with its name in the table.
    pub const ALL: [(Shape, &'static str); 3] = [
        (Shape::DeepLeft, "deep left"),
        (Shape::DeepRight, "deep right"),
        (Shape::Balanced, "balanced"),
    ];

    /// How many of the forks below a fork are in its first part.
    pub fn in_first(self, forks: usize) -> usize {
        match self {
            Shape::DeepLeft => forks,
            Shape::DeepRight => 0,
            Shape::Balanced => forks / 2,
        }
    }
}

/// How much of a stream has come.
#[derive(Clone, Copy, Debug, PartialEq, Eq)]
pub enum Share {
    Nothing,
    Half,
    All,
    /// The last of all that could come, and nothing before it.
    Last,
}

/// A type of so many nodes, an odd number. Sequence and side by side take turns from the root
/// down, cues and levels from left to right.
pub fn type_tree(shape: Shape, nodes: usize) -> Vec<u8> {
    let mut tree = Vec::with_capacity(nodes);
    let mut leaves = 0;
    write_type(shape, nodes / 2, SEQUENCE, &mut leaves, &mut tree);
    tree
}

fn write_type(shape: Shape, forks: usize, kind: u8, leaves: &mut usize, tree: &mut Vec<u8>) {
    if forks == 0 {
        tree.push(if leaves.is_multiple_of(2) { CUE } else { LEVEL });
        *leaves += 1;
        return;
    }
    tree.push(kind);
    let first = shape.in_first(forks - 1);
    let below = if kind == SEQUENCE { BESIDE } else { SEQUENCE };
    write_type(shape, first, below, leaves, tree);
    write_type(shape, forks - 1 - first, below, leaves, tree);
}

/// The slice in which this share of all that can come has come, from left to right, and every first
/// part that has fully come is crossed. A choice comes as a leaf does; it is that of the larger part.
pub fn slice_tree(tree: &[u8], share: Share) -> Vec<u8> {
    let slice_of = |coming| {
        let mut writer = Writer {
            tree,
            at: 0,
            could: 0,
            coming,
            slice: Vec::new(),
        };
        writer.write(share != Share::Nothing);
        (writer.slice, writer.could)
    };
    let (all, come) = slice_of(0..usize::MAX);
    let (nothing, could) = slice_of(0..0);
    match share {
        Share::Nothing => nothing,
        Share::Half => slice_of(0..come / 2).0,
        Share::All => all,
        Share::Last => slice_of(could - 1..could).0,
    }
}

/// Walks a type once, from left to right.
struct Writer<'a> {
    tree: &'a [u8],
    at: usize,
    /// How many things could have come so far, and which of them do.
    could: usize,
    coming: Range<usize>,
    slice: Vec<u8>,
}

impl Writer<'_> {
    /// Writes the slice of the type at hand and says whether it is complete.
    fn write(&mut self, crossing: bool) -> bool {
        let kind = self.tree[self.at];
        self.at += 1;
        match kind {
            SEQUENCE => self.sequence(crossing),
            BESIDE => {
                self.slice.push(slice_kind::BESIDE);
                let first = self.write(crossing);
                let second = self.write(crossing);
                first && second
            }
            EITHER => self.either(crossing),
            leaf => self.leaf(leaf),
        }
    }

    fn either(&mut self, crossing: bool) -> bool {
        let second = type_end(self.tree, self.at);
        let end = type_end(self.tree, second);
        let [first_size, second_size] = [second - self.at, end - second];
        // Of two parts of one size it is now the one and now the other.
        let now_second = first_size == second_size && self.at.is_multiple_of(2);
        let is_second = second_size > first_size || now_second;
        let complete = if !self.comes() {
            self.slice.push(slice_kind::NONE_CHOSEN);
            false
        } else if is_second {
            self.slice.push(slice_kind::SECOND_CHOSEN);
            self.at = second;
            self.write(crossing)
        } else {
            self.slice.push(slice_kind::FIRST_CHOSEN);
            self.write(crossing)
        };
        self.at = end;
        complete
    }

    fn sequence(&mut self, crossing: bool) -> bool {
        let place = self.slice.len();
        self.slice.push(slice_kind::IN_FIRST);
        if self.write(crossing) && crossing {
            self.slice[place] = slice_kind::CROSSED;
            return self.write(crossing);
        }
        self.at = type_end(self.tree, self.at);
        false
    }

    /// Whether what is at hand comes.
    fn comes(&mut self) -> bool {
        let comes = self.coming.contains(&self.could);
        self.could += 1;
        comes
    }

    fn leaf(&mut self, leaf: u8) -> bool {
        let come = self.comes();
        let value = self.at as u8;
        match (leaf, come) {
            (EMPTY, _) => self.slice.push(slice_kind::NOTHING),
            (CUE, false) => self.slice.push(slice_kind::CUE_AWAITED),
            (CUE, true) => self.slice.push(slice_kind::CUE_COME),
            (_, false) => self.slice.push(slice_kind::LEVEL_AWAITED),
            (_, true) => self.slice.extend([slice_kind::LEVEL_COME, value, !value]),
        }
        leaf == EMPTY || come
    }
}
