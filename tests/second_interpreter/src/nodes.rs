//! Nodes as trees. What they take and give is in `typing`, what they send and
//! leave in `feeding`.

use crate::types::Type;

/// A node of a patch as a tree.
#[derive(Clone, Debug, PartialEq, Eq)]
pub enum Node {
    /// Kind 0: s to s.
    Pass,
    /// Kind 1, then a nullable type: anything to that type.
    Silent(Type),
    /// Kind 2: anything to cue.
    Cue,
    /// Kind 3, then two bytes: anything to level.
    Level(u16),
    /// Kind 4: two nodes that each get the whole slice.
    Both(Box<Node>, Box<Node>),
    /// Kind 5: the left side of a type 4.
    Left,
    /// Kind 6: the right side of a type 4.
    Right,
    /// Kind 7: the first part of a sequence.
    First,
    /// Kind 8: the second part of a sequence.
    Second,
    /// Kind 9: a node for each part of a sequence.
    Then(Box<Node>, Box<Node>),
    /// Kind 10: the second takes what the first sends.
    Chain(Box<Node>, Box<Node>),
    /// Kind 11: (s, t), r to s, (t, r).
    RegroupRight,
    /// Kind 12: s, (t, r) to (s, t), r.
    RegroupLeft,
    /// Kind 13: s, (t beside r) to (s, t) beside (s, r).
    Spread,
    /// Kind 14: s to empty, s.
    Front,
    /// Kind 15: a node for each part of an either, to one output type.
    Choose(Box<Node>, Box<Node>),
    /// Kind 16, then any type t: s to either s or t.
    MarkFirst(Type),
    /// Kind 17, then any type t: s to either t or s.
    MarkSecond(Type),
}

impl Node {
    /// "At most 63 nodes in a patch."
    pub const LIMIT: usize = 63;

    /// Kind 1 with its type.
    pub fn silent(kept: Type) -> Self {
        Node::Silent(kept)
    }

    /// Kind 4 with its nodes.
    pub fn both(left: Node, right: Node) -> Self {
        Node::Both(Box::new(left), Box::new(right))
    }

    /// Kind 9 with its nodes.
    pub fn then(first: Node, second: Node) -> Self {
        Node::Then(Box::new(first), Box::new(second))
    }

    /// Kind 10 with its nodes.
    pub fn chain(first: Node, second: Node) -> Self {
        Node::Chain(Box::new(first), Box::new(second))
    }

    /// Kind 15 with its nodes.
    pub fn choose(first: Node, second: Node) -> Self {
        Node::Choose(Box::new(first), Box::new(second))
    }

    /// The number of nodes; those of a type that a node carries are not nodes
    /// of the patch.
    pub fn count(&self) -> usize {
        match self {
            Node::Both(one, other)
            | Node::Then(one, other)
            | Node::Chain(one, other)
            | Node::Choose(one, other) => 1 + one.count() + other.count(),
            _ => 1,
        }
    }
}
