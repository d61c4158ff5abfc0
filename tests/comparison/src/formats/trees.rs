//! Accepted files as the second interpreter's trees. Nothing is tried here: the files were read
//! and found in order before.

use second_interpreter::{Node, Slice, Type};

use crate::formats::files::{contents, count};
use crate::formats::kinds::{node_kind, slice_kind, type_kind};

/// The type with this tree.
pub fn type_of(tree: &[u8]) -> Type {
    Reader::new(tree).stream_type()
}

/// The slice with this tree.
pub fn slice_tree(tree: &[u8]) -> Slice {
    Reader::new(tree).slice()
}

/// The input type and the nodes of a patch file.
pub fn patch_trees(patch: &[u8]) -> (Type, Node) {
    let nodes = &patch[2 + count(patch)..];
    (
        type_of(contents(patch)),
        Reader::new(contents(nodes)).node(),
    )
}

/// The kind of a node.
pub fn kind_of(node: &Node) -> u8 {
    match node {
        Node::Pass => node_kind::PASS,
        Node::Silent(_) => node_kind::SILENT,
        Node::Cue => node_kind::CUE,
        Node::Level(_) => node_kind::LEVEL,
        Node::Both(..) => node_kind::BOTH,
        Node::Left => node_kind::LEFT,
        Node::Right => node_kind::RIGHT,
        Node::First => node_kind::FIRST,
        Node::Second => node_kind::SECOND,
        Node::Then(..) => node_kind::THEN,
        Node::Chain(..) => node_kind::CHAIN,
        Node::RegroupRight => node_kind::REGROUP_RIGHT,
        Node::RegroupLeft => node_kind::REGROUP_LEFT,
        Node::Spread => node_kind::SPREAD,
        Node::Front => node_kind::FRONT,
        Node::Choose(..) => node_kind::CHOOSE,
        Node::MarkFirst(_) => node_kind::MARK_FIRST,
        Node::MarkSecond(_) => node_kind::MARK_SECOND,
    }
}

struct Reader<'a> {
    tree: &'a [u8],
    at: usize,
}

impl<'a> Reader<'a> {
    fn new(tree: &'a [u8]) -> Self {
        Reader { tree, at: 0 }
    }

    fn byte(&mut self) -> u8 {
        self.at += 1;
        self.tree[self.at - 1]
    }

    fn value(&mut self) -> u16 {
        u16::from_be_bytes([self.byte(), self.byte()])
    }

    /// The two parts of a fork.
    fn parts<Tree>(&mut self, read: fn(&mut Self) -> Tree, make: fn(Tree, Tree) -> Tree) -> Tree {
        let first = read(self);
        let second = read(self);
        make(first, second)
    }

    fn stream_type(&mut self) -> Type {
        match self.byte() {
            type_kind::EMPTY => Type::Empty,
            type_kind::CUE => Type::Cue,
            type_kind::LEVEL => Type::Level,
            type_kind::SEQUENCE => self.parts(Self::stream_type, Type::sequence),
            type_kind::BESIDE => self.parts(Self::stream_type, Type::beside),
            _ => self.parts(Self::stream_type, Type::either),
        }
    }

    fn slice(&mut self) -> Slice {
        match self.byte() {
            slice_kind::NOTHING => Slice::Empty,
            slice_kind::CUE_AWAITED => Slice::CueNotYet,
            slice_kind::CUE_COME => Slice::CueCome,
            slice_kind::LEVEL_AWAITED => Slice::LevelNotYet,
            slice_kind::LEVEL_COME => Slice::LevelCome(self.value()),
            slice_kind::IN_FIRST => Slice::uncrossed(self.slice()),
            slice_kind::CROSSED => self.parts(Self::slice, Slice::crossed),
            slice_kind::BESIDE => self.parts(Self::slice, Slice::beside),
            slice_kind::NONE_CHOSEN => Slice::NoneChosen,
            slice_kind::FIRST_CHOSEN => Slice::first_chosen(self.slice()),
            _ => Slice::second_chosen(self.slice()),
        }
    }

    fn node(&mut self) -> Node {
        match self.byte() {
            node_kind::PASS => Node::Pass,
            node_kind::SILENT => Node::silent(self.stream_type()),
            node_kind::CUE => Node::Cue,
            node_kind::LEVEL => Node::Level(self.value()),
            node_kind::BOTH => self.parts(Self::node, Node::both),
            node_kind::LEFT => Node::Left,
            node_kind::RIGHT => Node::Right,
            node_kind::FIRST => Node::First,
            node_kind::SECOND => Node::Second,
            node_kind::THEN => self.parts(Self::node, Node::then),
            node_kind::CHAIN => self.parts(Self::node, Node::chain),
            node_kind::REGROUP_RIGHT => Node::RegroupRight,
            node_kind::REGROUP_LEFT => Node::RegroupLeft,
            node_kind::SPREAD => Node::Spread,
            node_kind::FRONT => Node::Front,
            node_kind::CHOOSE => self.parts(Self::node, Node::choose),
            node_kind::MARK_FIRST => Node::MarkFirst(self.stream_type()),
            _ => Node::MarkSecond(self.stream_type()),
        }
    }
}
