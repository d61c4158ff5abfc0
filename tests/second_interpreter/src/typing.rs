//! The second pass of Check: the type that a node gives for an input type.

use crate::nodes::Node;
use crate::numbers::{Number, NOT_NULLABLE, OUTPUTS_DIFFER, TYPE_TOO_LARGE, WRONG_SHAPE};
use crate::types::Type;

/// The type a node gives for an input type, or the number of its first fault:
/// "in preorder: at a node, 7 if its input lacks the shape it takes, 6 if
/// silent's type is not nullable; then its parts; then 4 if the type it gives
/// is too large".
pub fn output_type(node: &Node, input: &Type) -> Result<Type, Number> {
    let given = given_type(node, input)?;
    if given.size() > Type::LIMIT {
        return Err(TYPE_TOO_LARGE);
    }
    Ok(given)
}

/// All of a node's second pass but the size of the type it gives.
fn given_type(node: &Node, input: &Type) -> Result<Type, Number> {
    match node {
        Node::Pass => Ok(input.clone()),
        Node::Silent(kept) if kept.is_nullable() => Ok(kept.clone()),
        Node::Silent(_) => Err(NOT_NULLABLE),
        Node::Cue => Ok(Type::Cue),
        Node::Level(_) => Ok(Type::Level),
        Node::Both(left, right) => {
            let left = output_type(left, input)?;
            let right = output_type(right, input)?;
            Ok(Type::beside(left, right))
        }
        Node::Left => Ok(beside(input)?.0.clone()),
        Node::Right => Ok(beside(input)?.1.clone()),
        Node::First => Ok(sequence(input)?.0.clone()),
        Node::Second => Ok(sequence(input)?.1.clone()),
        Node::Then(first, second) => {
            let (s, t) = sequence(input)?;
            let first = output_type(first, s)?;
            let second = output_type(second, t)?;
            Ok(Type::sequence(first, second))
        }
        Node::Chain(first, second) => output_type(second, &output_type(first, input)?),
        Node::RegroupRight => regrouped_right(input),
        Node::RegroupLeft => regrouped_left(input),
        Node::Spread => spread(input),
        Node::Front => Ok(Type::sequence(Type::Empty, input.clone())),
        Node::Choose(first, second) => chosen(first, second, input),
        Node::MarkFirst(other) => Ok(Type::either(input.clone(), other.clone())),
        Node::MarkSecond(other) => Ok(Type::either(other.clone(), input.clone())),
    }
}

/// The parts of a sequence; 7 if the input is none.
fn sequence(input: &Type) -> Result<(&Type, &Type), Number> {
    input.sequence_parts().ok_or(WRONG_SHAPE)
}

/// The parts of a side by side; 7 if the input is none.
fn beside(input: &Type) -> Result<(&Type, &Type), Number> {
    input.beside_parts().ok_or(WRONG_SHAPE)
}

/// "two nodes from the two parts to one output type"; "30, choose's output types
/// differ, after its second part and before 4".
fn chosen(first: &Node, second: &Node, input: &Type) -> Result<Type, Number> {
    let (s, t) = input.either_parts().ok_or(WRONG_SHAPE)?;
    let first = output_type(first, s)?;
    let second = output_type(second, t)?;
    if first != second {
        return Err(OUTPUTS_DIFFER);
    }
    Ok(first)
}

/// "(s, t), r to s, (t, r)".
fn regrouped_right(input: &Type) -> Result<Type, Number> {
    let (s_t, r) = sequence(input)?;
    let (s, t) = sequence(s_t)?;
    let t_r = Type::sequence(t.clone(), r.clone());
    Ok(Type::sequence(s.clone(), t_r))
}

/// "regroup left: the reverse": s, (t, r) to (s, t), r.
fn regrouped_left(input: &Type) -> Result<Type, Number> {
    let (s, t_r) = sequence(input)?;
    let (t, r) = sequence(t_r)?;
    let s_t = Type::sequence(s.clone(), t.clone());
    Ok(Type::sequence(s_t, r.clone()))
}

/// "s, (t beside r) to (s, t) beside (s, r)".
fn spread(input: &Type) -> Result<Type, Number> {
    let (s, t_r) = sequence(input)?;
    let (t, r) = beside(t_r)?;
    let s_t = Type::sequence(s.clone(), t.clone());
    let s_r = Type::sequence(s.clone(), r.clone());
    Ok(Type::beside(s_t, s_r))
}
