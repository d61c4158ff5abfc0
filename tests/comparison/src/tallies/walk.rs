//! A feed, followed from node to node: the slice that comes to each, and what is in its place in
//! the patch left. What a cue or a level has done is told by its place in the patch left, and no
//! rule is asked about it.

use second_interpreter::{empty_slice, feed_node, output_type, slice_file, Node, Slice, Type};

use crate::calls::counts::Counts;
use crate::formats::files::contents;
use crate::formats::kinds::node_kind::{BOTH, CHAIN, CHOOSE, THEN};
use crate::formats::trees::kind_of;
use crate::tallies::cases::{self, Met};
use crate::tallies::openings::{Brought, Came, Effect, Location};
use crate::tallies::shares::{count_unequal, Share, Unequal};

/// The nodes were checked, and the slice was read against their input type.
const FITS: &str = "a checked node takes every slice of its input";

/// A node, its input type, the slice that comes to it, and what is in its place in the patch left:
/// nothing, if it was in a first part that is crossed.
#[derive(Clone, Copy)]
struct Place<'a> {
    location: Location,
    node: &'a Node,
    input: &'a Type,
    slice: &'a Slice,
    left: Option<&'a Node>,
}

/// What was met on the way.
#[derive(Clone, Debug, Default)]
pub struct Walk {
    /// How many nodes met each case.
    pub met: Met,
    /// How many of them sent other than as many cues and levels as came to them.
    pub unequal: Unequal,
    /// What was done to each cue and level of the patch, from left to right.
    pub effects: Vec<Effect>,
    /// Whether what is left of a node is none of what can be.
    impossible: bool,
}

impl Walk {
    /// Follows a feed of these nodes, which left others. Answers what was met and what is sent.
    pub fn of(
        node: &Node,
        input: &Type,
        slice: &Slice,
        left: &Node,
    ) -> Result<(Self, Slice), String> {
        let mut walk = Walk::default();
        let (sent, _) = walk.go(Place {
            location: Location::Alone,
            node,
            input,
            slice,
            left: Some(left),
        });
        if walk.impossible {
            return Err("the patch left is not built as the nodes leave it".to_string());
        }
        Ok((walk, sent))
    }

    /// Counts the node and its parts. Answers what the node sends, which is what comes to the next
    /// one in a chain, and the type that it gives.
    fn go(&mut self, place: Place) -> (Slice, Type) {
        let waits = is_opening(place.node) && place.left == Some(place.node);
        let (sent, gives) = self.sends(place, waits);
        let case = cases::place(cases::name(place.node, place.slice, waits));
        self.met[case] += 1;
        let share = Share::of(Counts {
            arrived: place.slice.arrivals(),
            sent: sent.arrivals(),
        });
        count_unequal(&mut self.unequal, case, share);
        (sent, gives)
    }

    /// What the node sends, and the type that it gives; its parts are counted.
    fn sends(&mut self, place: Place, waits: bool) -> (Slice, Type) {
        match place.node {
            Node::Cue | Node::Level(_) => self.opening(place, waits),
            Node::Both(..) => self.both(place),
            Node::Then(..) => self.then(place),
            Node::Chain(before, _) => self.chain(place, Location::Behind(kind_of(before))),
            Node::Choose(..) => self.choose(place),
            leaf => (
                feed_node(leaf, place.input, place.slice).expect(FITS).sent,
                output_type(leaf, place.input).expect(FITS),
            ),
        }
    }

    /// A cue or a level waits as long as it is still in its place. What has sent is silent 0.
    fn opening(&mut self, place: Place, waits: bool) -> (Slice, Type) {
        let silent = |left: &Node| *left == Node::silent(Type::Empty);
        self.impossible |= !waits && !place.left.is_none_or(silent);
        let came = Came {
            location: place.location,
            is_level: matches!(place.node, Node::Level(_)),
            brought: Brought::by(contents(&slice_file(place.slice))),
        };
        self.effects.push(if waits {
            Effect::Waited(came)
        } else {
            Effect::Sent(came)
        });
        match (place.node, waits) {
            (Node::Level(_), true) => (Slice::LevelNotYet, Type::Level),
            (Node::Level(value), false) => (Slice::LevelCome(*value), Type::Level),
            (_, true) => (Slice::CueNotYet, Type::Cue),
            (_, false) => (Slice::CueCome, Type::Cue),
        }
    }

    fn both(&mut self, place: Place) -> (Slice, Type) {
        let [one, other] = self.parts(place, [Location::First(BOTH), Location::Second(BOTH)]);
        let (one, one_type) = self.go(one);
        let (other, other_type) = self.go(other);
        (
            Slice::beside(one, other),
            Type::beside(one_type, other_type),
        )
    }

    fn chain(&mut self, place: Place, behind: Location) -> (Slice, Type) {
        let [first, second] = self.parts(place, [Location::First(CHAIN), behind]);
        let (sent, between) = self.go(first);
        self.go(second.fed(&between, &sent, second.left))
    }

    fn then(&mut self, place: Place) -> (Slice, Type) {
        let (first_input, second_input) = place.input.sequence_parts().expect(FITS);
        let locations = [Location::First(THEN), Location::Second(THEN)];
        match place.slice {
            Slice::Crossed(b, q) => {
                let [first, second] = halves(place, locations);
                let (b, first_type) = self.go(first.fed(first_input, b, None));
                let (q, second_type) = self.go(second.fed(second_input, q, place.left));
                let sent = Slice::crossed(b, q);
                (sent, Type::sequence(first_type, second_type))
            }
            Slice::Uncrossed(p) => {
                let [first, second] = self.parts(place, locations);
                let (p, first_type) = self.go(first.fed(first_input, p, first.left));
                self.pass_over(second.node, Effect::Unfed);
                let second_type = output_type(second.node, second_input).expect(FITS);
                (Slice::uncrossed(p), Type::sequence(first_type, second_type))
            }
            _ => unreachable!("{FITS}"),
        }
    }

    fn choose(&mut self, place: Place) -> (Slice, Type) {
        let (first_input, second_input) = place.input.either_parts().expect(FITS);
        let [first, second] = halves(place, [Location::First(CHOOSE), Location::Second(CHOOSE)]);
        match place.slice {
            Slice::FirstChosen(p) => {
                let answer = self.go(first.fed(first_input, p, place.left));
                self.pass_over(second.node, Effect::Gone);
                answer
            }
            Slice::SecondChosen(q) => {
                self.pass_over(first.node, Effect::Gone);
                self.go(second.fed(second_input, q, place.left))
            }
            _ => {
                self.pass_over(place.node, Effect::Unfed);
                let gives = output_type(first.node, first_input).expect(FITS);
                (empty_slice(&gives), gives)
            }
        }
    }

    /// The parts of a fork that stays, each with what is left of it.
    fn parts<'a>(&mut self, place: Place<'a>, locations: [Location; 2]) -> [Place<'a>; 2] {
        let [first, second] = halves(place, locations);
        let Some(left) = place.left else {
            return [first, second];
        };
        let same_kind = kind_of(left) == kind_of(place.node);
        self.impossible |= !same_kind;
        let [one, other] = match parts_of(left).filter(|_| same_kind) {
            Some([one, other]) => [Some(one), Some(other)],
            None => [None, None],
        };
        [
            Place { left: one, ..first },
            Place {
                left: other,
                ..second
            },
        ]
    }

    /// The cues and levels of a node that is not fed.
    fn pass_over(&mut self, node: &Node, effect: Effect) {
        if let Some(parts) = parts_of(node) {
            for part in parts {
                self.pass_over(part, effect);
            }
        } else if is_opening(node) {
            self.effects.push(effect);
        }
    }
}

impl Place<'_> {
    /// The same node, with what comes to it and what is left of it.
    fn fed<'a>(self, input: &'a Type, slice: &'a Slice, left: Option<&'a Node>) -> Place<'a>
    where
        Self: 'a,
    {
        Place {
            input,
            slice,
            left,
            ..self
        }
    }
}

/// Whether it is a cue or a level.
fn is_opening(node: &Node) -> bool {
    matches!(node, Node::Cue | Node::Level(_))
}

/// The two parts of a node.
fn parts_of(node: &Node) -> Option<[&Node; 2]> {
    match node {
        Node::Both(one, other)
        | Node::Then(one, other)
        | Node::Chain(one, other)
        | Node::Choose(one, other) => Some([one, other]),
        _ => None,
    }
}

/// The parts of a fork, each with all that the fork has.
fn halves<'a>(place: Place<'a>, locations: [Location; 2]) -> [Place<'a>; 2] {
    let [one, other] = parts_of(place.node).expect("a fork has two parts");
    let part = |location, node| Place {
        location,
        node,
        ..place
    };
    [part(locations[0], one), part(locations[1], other)]
}
