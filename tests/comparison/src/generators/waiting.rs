//! Patches with a cue or a level that waits for an arrival: behind a node of each kind, and under
//! each kind with parts. Where it is decides which slice it is fed.

use second_interpreter::{output_type, Node, Type};

use crate::formats::kinds::node_kind::{
    BOTH, CHAIN, CHOOSE, CUE, FIRST, LEFT, LEVEL, LISTED, REGROUP_LEFT, REGROUP_RIGHT, RIGHT,
    SECOND, SPREAD, THEN,
};
use crate::formats::preorder::is_node_fork;
use crate::generators::patches::{a_type, Grower, Grown};
use crate::generators::types::Style;

/// In so many of a hundred patches nothing is in front of the node that waits.
const BARE: usize = 20;

/// So many of a hundred parts of a type are large.
const LARGE: usize = 10;

/// The node that waits is at most so many forks deep.
const DEEPEST: usize = 2;

/// Two in the order of a patch or a type.
fn in_order<Tree>(is_first: bool, one: Tree, other: Tree) -> [Tree; 2] {
    if is_first {
        [one, other]
    } else {
        [other, one]
    }
}

impl Grower<'_> {
    /// An input type, and the nodes of a patch on it.
    pub(super) fn waiting(&mut self) -> (Type, Grown) {
        let any = self.random.below(usize::from(LISTED)) as u8;
        let part = self.random.pick(&[LEFT, RIGHT, FIRST, SECOND]);
        // Behind those that send a part it matters most which part comes first.
        let kind = self.random.pick(&[any, any, part]);
        let mut input = self.taken_by(kind);
        let mut grown = if self.random.chance(BARE) {
            self.waiting_on(&input)
        } else {
            let before = self.of_kind(kind, &input);
            let last = self.waiting_on(&before.gives);
            Grown {
                node: Node::chain(before.node, last.node),
                gives: last.gives,
            }
        };
        for _ in 0..self.random.below(DEEPEST + 1) {
            (input, grown) = self.under(input, grown);
        }
        (input, grown)
    }

    /// A cue or a level.
    fn waiting_on(&mut self, input: &Type) -> Grown {
        let kind = self.random.pick(&[CUE, LEVEL]);
        self.of_kind(kind, input)
    }

    /// A small type, seldom a large one with long slices: what comes may be at their end.
    fn part(&mut self) -> Type {
        if self.random.chance(LARGE) {
            let style = Style::lanes(self.random);
            let forks = self.random.between(20, 120);
            return a_type(self.random, &style, forks);
        }
        let style = Style::any(self.random);
        let forks = self.random.pick(&[0, 0, 0, 1, 2, 3, 4]);
        a_type(self.random, &style, forks)
    }

    /// A type that nodes of this kind take.
    fn taken_by(&mut self, kind: u8) -> Type {
        let [one, other, last] = [self.part(), self.part(), self.part()];
        match kind {
            LEFT | RIGHT => Type::beside(one, other),
            FIRST | SECOND | THEN => Type::sequence(one, other),
            REGROUP_RIGHT => Type::sequence(Type::sequence(one, other), last),
            REGROUP_LEFT => Type::sequence(one, Type::sequence(other, last)),
            SPREAD => Type::sequence(one, Type::beside(other, last)),
            CHOOSE => Type::either(one, other),
            _ => one,
        }
    }

    /// A node of this kind on a type that it takes.
    fn of_kind(&mut self, kind: u8, input: &Type) -> Grown {
        if is_node_fork(kind) {
            let forks = [self.random.below(2), self.random.below(2)];
            return self.grow_fork(kind, input, forks, Type::LIMIT);
        }
        let node = self.leaf_of(kind, input, Type::LIMIT);
        // What gives too large a type makes a patch that is refused.
        let gives = output_type(&node, input).unwrap_or(Type::Cue);
        Grown { node, gives }
    }

    /// The node as one part of a fork.
    fn under(&mut self, input: Type, grown: Grown) -> (Type, Grown) {
        let is_first = self.random.chance(50);
        match self.random.pick(&[BOTH, THEN, CHAIN, CHOOSE]) {
            BOTH => self.under_both(is_first, input, grown),
            THEN => self.under_then(is_first, input, grown),
            CHOOSE => self.under_choose(is_first, input, grown),
            _ => self.in_chain(is_first, input, grown),
        }
    }

    /// Any node of few forks.
    fn other(&mut self, input: &Type) -> Grown {
        let forks = self.random.below(2);
        self.grow(input, forks, Type::LIMIT)
    }

    fn under_both(&mut self, is_first: bool, input: Type, grown: Grown) -> (Type, Grown) {
        let other = self.other(&input);
        let [one, other] = in_order(is_first, grown, other);
        let gives = Type::beside(one.gives, other.gives);
        let node = Node::both(one.node, other.node);
        (input, Grown { node, gives })
    }

    fn under_then(&mut self, is_first: bool, input: Type, grown: Grown) -> (Type, Grown) {
        let other_input = self.part();
        let other = self.other(&other_input);
        let [first, second] = in_order(is_first, input, other_input);
        let [one, other] = in_order(is_first, grown, other);
        let gives = Type::sequence(one.gives, other.gives);
        let node = Node::then(one.node, other.node);
        (Type::sequence(first, second), Grown { node, gives })
    }

    /// Where no other node gives the same type it stays as it is.
    fn under_choose(&mut self, is_first: bool, input: Type, grown: Grown) -> (Type, Grown) {
        let other_input = self.part();
        let Some(other) = self.reach(&other_input, &grown.gives, 1) else {
            return (input, grown);
        };
        let [first, second] = in_order(is_first, input, other_input);
        let [one, other] = in_order(is_first, grown.node, other);
        let node = Node::choose(one, other);
        (Type::either(first, second), Grown { node, ..grown })
    }

    fn in_chain(&mut self, is_first: bool, input: Type, grown: Grown) -> (Type, Grown) {
        if is_first {
            let next = self.other(&grown.gives);
            let node = Node::chain(grown.node, next.node);
            return (input, Grown { node, ..next });
        }
        let node = Node::chain(Node::Pass, grown.node);
        (input, Grown { node, ..grown })
    }
}
