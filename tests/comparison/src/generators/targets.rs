//! Nodes that are grown towards a type: the two nodes of a choose have to give the same one.

use second_interpreter::{output_type, Node, Type};

use crate::generators::patches::Grower;
use crate::generators::slices::value;

/// With so many forks a node can be built from every input to this type.
fn forks_to(target: &Type) -> usize {
    match target {
        Type::Beside(left, right) if !target.is_nullable() => 1 + forks_to(left) + forks_to(right),
        Type::Empty | Type::Cue | Type::Level | Type::Beside(..) => 0,
        // Where the input is no sequence, front makes it one.
        Type::Sequence(first, second) => 2 + forks_to(first) + forks_to(second),
        Type::Either(first, second) => 1 + forks_to(first).max(forks_to(second)),
    }
}

impl Grower<'_> {
    /// A node from the input to this very type, with at most so many forks; none if it would need
    /// more.
    pub(super) fn reach(&mut self, input: &Type, target: &Type, forks: usize) -> Option<Node> {
        let Some(spare) = forks.checked_sub(forks_to(target)) else {
            return self.leaf_to(input, target);
        };
        if spare > 0 && self.random.chance(50) {
            let forks_before = self.random.below(spare);
            let before = self.grow(input, forks_before, Type::LIMIT);
            let rest = self.reach(&before.gives, target, forks - 1 - forks_before)?;
            return Some(Node::chain(before.node, rest));
        }
        let leaf = self.leaf_to(input, target);
        if leaf.is_some() && self.random.chance(50) {
            return leaf;
        }
        match input {
            Type::Either(first, second) if spare > forks_to(target) && self.random.chance(50) => {
                let [one, other] = self.share(forks - 1, [target, target]);
                let one = self.reach(first, target, one)?;
                Some(Node::choose(one, self.reach(second, target, other)?))
            }
            _ => self.build(input, target, forks),
        }
    }

    /// A node without parts from the input to this very type, if there is one.
    fn leaf_to(&mut self, input: &Type, target: &Type) -> Option<Node> {
        let carrying = match target {
            Type::Either(first, second) => [
                Node::MarkFirst((**second).clone()),
                Node::MarkSecond((**first).clone()),
            ],
            _ => [
                Node::silent(target.clone()),
                Node::Level(value(self.random)),
            ],
        };
        let bare = [
            Node::Pass,
            Node::Cue,
            Node::Left,
            Node::Right,
            Node::First,
            Node::Second,
            Node::RegroupRight,
            Node::RegroupLeft,
            Node::Spread,
            Node::Front,
        ];
        let mut fitting: Vec<Node> = (carrying.into_iter().chain(bare))
            .filter(|node| output_type(node, input).as_ref() == Ok(target))
            .collect();
        if fitting.is_empty() {
            return None;
        }
        let picked = self.random.below(fitting.len());
        Some(fitting.swap_remove(picked))
    }

    /// A node that gives the target because its parts give the target's parts. The forks suffice.
    fn build(&mut self, input: &Type, target: &Type, forks: usize) -> Option<Node> {
        match target {
            Type::Beside(left, right) if !target.is_nullable() => {
                let [one, other] = self.share(forks - 1, [left, right]);
                let one = self.reach(input, left, one)?;
                Some(Node::both(one, self.reach(input, right, other)?))
            }
            Type::Empty | Type::Beside(..) => {
                Some(self.ending(input, Node::silent(target.clone()), forks))
            }
            Type::Cue => Some(self.ending(input, Node::Cue, forks)),
            Type::Level => {
                let level = Node::Level(value(self.random));
                Some(self.ending(input, level, forks))
            }
            Type::Sequence(first, second) => self.build_sequence(input, [first, second], forks),
            Type::Either(first, second) => {
                let (chosen, mark) = if self.random.chance(50) {
                    (first, Node::MarkFirst((**second).clone()))
                } else {
                    (second, Node::MarkSecond((**first).clone()))
                };
                Some(Node::chain(self.reach(input, chosen, forks - 1)?, mark))
            }
        }
    }

    fn build_sequence(&mut self, input: &Type, to: [&Type; 2], forks: usize) -> Option<Node> {
        match input {
            Type::Sequence(first, second) => {
                let [one, other] = self.share(forks - 1, to);
                let one = self.reach(first, to[0], one)?;
                Some(Node::then(one, self.reach(second, to[1], other)?))
            }
            _ => {
                let [one, other] = self.share(forks - 2, to);
                let one = self.reach(&Type::Empty, to[0], one)?;
                let then = Node::then(one, self.reach(input, to[1], other)?);
                Some(Node::chain(Node::Front, then))
            }
        }
    }

    /// Forks for two nodes that go to these types: what each needs, and a share of what is spare.
    fn share(&mut self, forks: usize, to: [&Type; 2]) -> [usize; 2] {
        let [one, other] = to.map(forks_to);
        let more = self.random.below(forks - one - other + 1);
        [one + more, forks - one - more]
    }

    /// A node that takes every type, at the end of a chain with so many forks in all.
    pub(super) fn ending(&mut self, input: &Type, end: Node, forks: usize) -> Node {
        if forks == 0 {
            return end;
        }
        Node::chain(self.grow(input, forks - 1, Type::LIMIT).node, end)
    }
}
