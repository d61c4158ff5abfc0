//! Feeding a node: what it sends for a slice, and the node left.

use crate::nodes::Node;
use crate::slices::{empty_slice, what_slice_leaves, Slice};
use crate::types::Type;
use crate::typing::output_type;

/// What a fed node answers.
#[derive(Clone, Debug, PartialEq, Eq)]
pub struct Fed {
    /// The slice it sends.
    pub sent: Slice,
    /// The node left.
    pub left: Node,
}

impl Fed {
    /// An answer, present: every feed but one with a misshapen input has one.
    fn some(sent: Slice, left: Node) -> Option<Fed> {
        Some(Fed { sent, left })
    }
}

/// "A node is fed by its kind, and the two-part kinds feed their parts in turn."
///
/// `input` is the node's input type, `slice` a slice of it. `None` only if they
/// lack the shape the node takes, so never for a patch that Check accepts and a
/// slice that Admit accepts.
pub fn feed_node(node: &Node, input: &Type, slice: &Slice) -> Option<Fed> {
    match node {
        // "Sends the slice; pass."
        Node::Pass => Fed::some(slice.clone(), Node::Pass),
        // "Sends n's empty slice; itself."
        Node::Silent(kept) => Fed::some(empty_slice(kept), node.clone()),
        Node::Cue => feed_opening(node, Slice::CueCome, input, slice),
        // "as cue, sending 4 and the value"
        Node::Level(value) => feed_opening(node, Slice::LevelCome(*value), input, slice),
        Node::Both(left, right) => feed_both(left, right, input, slice),
        Node::Left => Fed::some(sides(slice)?.0.clone(), Node::Left),
        Node::Right => Fed::some(sides(slice)?.1.clone(), Node::Right),
        Node::First => feed_first(input, slice),
        Node::Second => feed_second(input, slice),
        Node::Then(first, second) => feed_then(first, second, input, slice),
        Node::Chain(first, second) => feed_chain(first, second, input, slice),
        Node::RegroupRight => feed_regroup_right(slice),
        Node::RegroupLeft => feed_regroup_left(slice),
        Node::Spread => feed_spread(slice),
        // "p gives 6 0 p; pass."
        Node::Front => Fed::some(Slice::crossed(Slice::Empty, slice.clone()), Node::Pass),
        Node::Choose(first, second) => feed_choose(first, second, input, slice),
        // "marking the choice at first and leaving pass"
        Node::MarkFirst(_) => Fed::some(Slice::first_chosen(slice.clone()), Node::Pass),
        Node::MarkSecond(_) => Fed::some(Slice::second_chosen(slice.clone()), Node::Pass),
    }
}

/// M-103, for nodes 2 and 3: "they send when the slice differs from its type's empty
/// slice or is complete, otherwise they send the empty slice of their own type and
/// stay." What is sent, `opening`, and the "silent 0" left by it are document 01's.
fn feed_opening(node: &Node, opening: Slice, input: &Type, slice: &Slice) -> Option<Fed> {
    if *slice != empty_slice(input) || slice.is_complete() {
        return Fed::some(opening, Node::silent(Type::Empty));
    }
    let own_type = output_type(node, input).ok()?;
    Fed::some(empty_slice(&own_type), node.clone())
}

/// "Each gets the whole slice; sends 7 and both outputs; both of the nodes left."
fn feed_both(left: &Node, right: &Node, input: &Type, slice: &Slice) -> Option<Fed> {
    let left = feed_node(left, input, slice)?;
    let right = feed_node(right, input, slice)?;
    Fed::some(
        Slice::beside(left.sent, right.sent),
        Node::both(left.left, right.left),
    )
}

/// The two sides of a slice of a type 4.
fn sides(slice: &Slice) -> Option<(&Slice, &Slice)> {
    match slice {
        Slice::Beside(left, right) => Some((left, right)),
        _ => None,
    }
}

/// "On 5 p sends p; itself. On 6 b q sends b; silent with what b leaves of s."
fn feed_first(input: &Type, slice: &Slice) -> Option<Fed> {
    let (s, _) = input.sequence_parts()?;
    match slice {
        Slice::Uncrossed(p) => Fed::some((**p).clone(), Node::First),
        Slice::Crossed(b, _) => Fed::some((**b).clone(), Node::silent(what_slice_leaves(s, b)?)),
        _ => None,
    }
}

/// "On 5 sends t's empty slice; itself. On 6 b q sends q; pass."
fn feed_second(input: &Type, slice: &Slice) -> Option<Fed> {
    let (_, t) = input.sequence_parts()?;
    match slice {
        Slice::Uncrossed(_) => Fed::some(empty_slice(t), Node::Second),
        Slice::Crossed(_, q) => Fed::some((**q).clone(), Node::Pass),
        _ => None,
    }
}

/// "On 5 p runs the first node: 5 and its output; then, with the first node
/// replaced. On 6 b q runs the first on b and the second on q: 6 and both
/// outputs; the second node's remainder alone."
fn feed_then(first: &Node, second: &Node, input: &Type, slice: &Slice) -> Option<Fed> {
    let (s, t) = input.sequence_parts()?;
    match slice {
        Slice::Uncrossed(p) => {
            let first = feed_node(first, s, p)?;
            let left = Node::then(first.left, second.clone());
            Fed::some(Slice::uncrossed(first.sent), left)
        }
        Slice::Crossed(b, q) => {
            let first = feed_node(first, s, b)?;
            let second = feed_node(second, t, q)?;
            Fed::some(Slice::crossed(first.sent, second.sent), second.left)
        }
        _ => None,
    }
}

/// "the second takes what the first sends; chain of both left."
fn feed_chain(first: &Node, second: &Node, input: &Type, slice: &Slice) -> Option<Fed> {
    let between = output_type(first, input).ok()?;
    let first = feed_node(first, input, slice)?;
    let second = feed_node(second, &between, &first.sent)?;
    Fed::some(second.sent, Node::chain(first.left, second.left))
}

/// "on 8 it sends that type's empty slice and stays; a choice feeds the chosen
/// node, whose remainder stays alone"
fn feed_choose(first: &Node, second: &Node, input: &Type, slice: &Slice) -> Option<Fed> {
    let (s, t) = input.either_parts()?;
    match slice {
        Slice::NoneChosen => {
            let given = output_type(first, s).ok()?;
            let left = Node::choose(first.clone(), second.clone());
            Fed::some(empty_slice(&given), left)
        }
        Slice::FirstChosen(p) => feed_node(first, s, p),
        Slice::SecondChosen(q) => feed_node(second, t, q),
        _ => None,
    }
}

/// "5 5 p gives 5 p, itself. 5 6 b q gives 6 b 5 q, pass. 6 6 b c q gives
/// 6 b 6 c q, pass."
fn feed_regroup_right(slice: &Slice) -> Option<Fed> {
    match slice {
        Slice::Uncrossed(inner) => match &**inner {
            Slice::Uncrossed(_) => Fed::some((**inner).clone(), Node::RegroupRight),
            Slice::Crossed(b, q) => {
                let rest = Slice::uncrossed((**q).clone());
                Fed::some(Slice::crossed((**b).clone(), rest), Node::Pass)
            }
            _ => None,
        },
        Slice::Crossed(inner, q) => match &**inner {
            Slice::Crossed(b, c) => {
                let rest = Slice::crossed((**c).clone(), (**q).clone());
                Fed::some(Slice::crossed((**b).clone(), rest), Node::Pass)
            }
            _ => None,
        },
        _ => None,
    }
}

/// "5 p gives 5 5 p, itself. 6 b 5 q gives 5 6 b q, pass. 6 b 6 c q gives
/// 6 6 b c q, pass."
fn feed_regroup_left(slice: &Slice) -> Option<Fed> {
    match slice {
        Slice::Uncrossed(_) => Fed::some(Slice::uncrossed(slice.clone()), Node::RegroupLeft),
        Slice::Crossed(b, rest) => match &**rest {
            Slice::Uncrossed(q) => {
                let first = Slice::crossed((**b).clone(), (**q).clone());
                Fed::some(Slice::uncrossed(first), Node::Pass)
            }
            Slice::Crossed(c, q) => {
                let first = Slice::crossed((**b).clone(), (**c).clone());
                Fed::some(Slice::crossed(first, (**q).clone()), Node::Pass)
            }
            _ => None,
        },
        _ => None,
    }
}

/// "5 p gives 7 5 p 5 p, itself. 6 b 7 q r gives 7 6 b q 6 b r, pass."
fn feed_spread(slice: &Slice) -> Option<Fed> {
    match slice {
        Slice::Uncrossed(_) => Fed::some(Slice::beside(slice.clone(), slice.clone()), Node::Spread),
        Slice::Crossed(b, rest) => {
            let (q, r) = sides(rest)?;
            let left = Slice::crossed((**b).clone(), q.clone());
            let right = Slice::crossed((**b).clone(), r.clone());
            Fed::some(Slice::beside(left, right), Node::Pass)
        }
        _ => None,
    }
}
