//! Slices: what has come of a stream, how much that is, what it leaves of its type,
//! and how two slices that follow each other join.

use crate::types::Type;

/// A slice as a tree.
#[derive(Clone, Debug, PartialEq, Eq)]
pub enum Slice {
    /// Kind 0, of type empty.
    Empty,
    /// Kind 1: a cue not yet.
    CueNotYet,
    /// Kind 2: a cue come.
    CueCome,
    /// Kind 3: a level not yet.
    LevelNotYet,
    /// Kind 4: a level come, with its value.
    LevelCome(u16),
    /// Kind 5: a sequence still in its first part.
    Uncrossed(Box<Slice>),
    /// Kind 6: a sequence crossed, a complete slice of its first part and a
    /// slice of its second.
    Crossed(Box<Slice>, Box<Slice>),
    /// Kind 7: both sides of a side by side.
    Beside(Box<Slice>, Box<Slice>),
    /// Kind 8: an either with none chosen.
    NoneChosen,
    /// Kind 9: an either with its first part chosen, and a slice of that.
    FirstChosen(Box<Slice>),
    /// Kind 10: an either with its second part chosen, and a slice of that.
    SecondChosen(Box<Slice>),
}

impl Slice {
    /// Kind 5 with a slice of the first part.
    pub fn uncrossed(first: Slice) -> Self {
        Slice::Uncrossed(Box::new(first))
    }

    /// Kind 6 with a complete slice of the first part and a slice of the second.
    pub fn crossed(first: Slice, second: Slice) -> Self {
        Slice::Crossed(Box::new(first), Box::new(second))
    }

    /// Kind 7 with a slice of each side.
    pub fn beside(left: Slice, right: Slice) -> Self {
        Slice::Beside(Box::new(left), Box::new(right))
    }

    /// Kind 9 with a slice of the first part.
    pub fn first_chosen(first: Slice) -> Self {
        Slice::FirstChosen(Box::new(first))
    }

    /// Kind 10 with a slice of the second part.
    pub fn second_chosen(second: Slice) -> Self {
        Slice::SecondChosen(Box::new(second))
    }

    /// "*Complete* means: 0, 2, 4, a 6 whose second is complete, a 7 with both
    /// complete." A choice "is complete when that is"; 8 "is never complete".
    pub fn is_complete(&self) -> bool {
        match self {
            Slice::Empty | Slice::CueCome | Slice::LevelCome(_) => true,
            Slice::CueNotYet | Slice::LevelNotYet | Slice::Uncrossed(_) => false,
            Slice::NoneChosen => false,
            Slice::Crossed(_, second) => second.is_complete(),
            Slice::Beside(left, right) => left.is_complete() && right.is_complete(),
            Slice::FirstChosen(chosen) | Slice::SecondChosen(chosen) => chosen.is_complete(),
        }
    }

    /// M-104: "the cues and levels come in it". A level counts one, whatever its
    /// value; a crossing or a choice counts only what is in it.
    pub fn arrivals(&self) -> u32 {
        match self {
            Slice::CueCome | Slice::LevelCome(_) => 1,
            Slice::Empty | Slice::CueNotYet | Slice::LevelNotYet | Slice::NoneChosen => 0,
            Slice::Uncrossed(inside) | Slice::FirstChosen(inside) | Slice::SecondChosen(inside) => {
                inside.arrivals()
            }
            Slice::Crossed(one, other) | Slice::Beside(one, other) => {
                one.arrivals() + other.arrivals()
            }
        }
    }

    /// Whether this is a slice of the type, by the list under "Slices" and M-100.
    pub fn is_slice_of(&self, stream: &Type) -> bool {
        match (stream, self) {
            (Type::Empty, Slice::Empty) => true,
            (Type::Cue, Slice::CueNotYet | Slice::CueCome) => true,
            (Type::Level, Slice::LevelNotYet | Slice::LevelCome(_)) => true,
            (Type::Sequence(s, _), Slice::Uncrossed(p)) => p.is_slice_of(s),
            (Type::Sequence(s, t), Slice::Crossed(b, q)) => {
                b.is_slice_of(s) && b.is_complete() && q.is_slice_of(t)
            }
            (Type::Beside(s, t), Slice::Beside(p, q)) => p.is_slice_of(s) && q.is_slice_of(t),
            (Type::Either(..), Slice::NoneChosen) => true,
            (Type::Either(s, _), Slice::FirstChosen(p)) => p.is_slice_of(s),
            (Type::Either(_, t), Slice::SecondChosen(q)) => q.is_slice_of(t),
            _ => false,
        }
    }
}

/// "The *empty* slice of a type is 0, 1 or 3 at its leaves, 5 with the empty
/// slice of the first part, 7 with both empty." From M-100: "8 none chosen (also
/// its empty slice)".
pub fn empty_slice(stream: &Type) -> Slice {
    match stream {
        Type::Empty => Slice::Empty,
        Type::Cue => Slice::CueNotYet,
        Type::Level => Slice::LevelNotYet,
        Type::Sequence(first, _) => Slice::uncrossed(empty_slice(first)),
        Type::Beside(left, right) => Slice::beside(empty_slice(left), empty_slice(right)),
        Type::Either(..) => Slice::NoneChosen,
    }
}

/// "What a slice leaves of a type"; `None` if the slice lacks the type's shape.
pub fn what_slice_leaves(stream: &Type, slice: &Slice) -> Option<Type> {
    match (stream, slice) {
        // "0 leaves empty; ... 2 and 4 leave empty"
        (Type::Empty, Slice::Empty)
        | (Type::Cue, Slice::CueCome)
        | (Type::Level, Slice::LevelCome(_)) => Some(Type::Empty),
        // "1 and 3 leave the type"
        (Type::Cue, Slice::CueNotYet) => Some(Type::Cue),
        (Type::Level, Slice::LevelNotYet) => Some(Type::Level),
        // "5 leaves a sequence of what is left of the first part and the whole
        // second"
        (Type::Sequence(s, t), Slice::Uncrossed(p)) => {
            Some(Type::sequence(what_slice_leaves(s, p)?, (**t).clone()))
        }
        // "6 leaves what is left of the second"
        (Type::Sequence(_, t), Slice::Crossed(_, q)) => what_slice_leaves(t, q),
        // "7 leaves both remainders side by side"
        (Type::Beside(s, t), Slice::Beside(p, q)) => Some(Type::beside(
            what_slice_leaves(s, p)?,
            what_slice_leaves(t, q)?,
        )),
        // "8 leaves the type"
        (Type::Either(..), Slice::NoneChosen) => Some(stream.clone()),
        // "A choice leaves what its slice leaves"
        (Type::Either(s, _), Slice::FirstChosen(p)) => what_slice_leaves(s, p),
        (Type::Either(_, t), Slice::SecondChosen(q)) => what_slice_leaves(t, q),
        _ => None,
    }
}

/// "**Join** of a slice p and a slice q of what p leaves"; `None` if the second
/// lacks the shape of what the first leaves.
pub fn join_slices(first: &Slice, second: &Slice) -> Option<Slice> {
    match (first, second) {
        // "after 0, 2 or 4, p" (what these leave is empty, whose slice is 0)
        (Slice::Empty | Slice::CueCome | Slice::LevelCome(_), Slice::Empty) => Some(first.clone()),
        // "after 1 or 3, q"
        (Slice::CueNotYet, Slice::CueNotYet | Slice::CueCome)
        | (Slice::LevelNotYet, Slice::LevelNotYet | Slice::LevelCome(_)) => Some(second.clone()),
        // "5 p with 5 q is 5 (p joined q)"
        (Slice::Uncrossed(p), Slice::Uncrossed(q)) => Some(Slice::uncrossed(join_slices(p, q)?)),
        // "5 p with 6 b r is 6 (p joined b) r"
        (Slice::Uncrossed(p), Slice::Crossed(b, r)) => {
            Some(Slice::crossed(join_slices(p, b)?, (**r).clone()))
        }
        // "6 b p with q is 6 b (p joined q)"
        (Slice::Crossed(b, p), q) => Some(Slice::crossed((**b).clone(), join_slices(p, q)?)),
        // "7 joins each side"
        (Slice::Beside(p, p_right), Slice::Beside(q, q_right)) => Some(Slice::beside(
            join_slices(p, q)?,
            join_slices(p_right, q_right)?,
        )),
        // "8 ... joined with q gives q"
        (Slice::NoneChosen, Slice::NoneChosen | Slice::FirstChosen(_) | Slice::SecondChosen(_)) => {
            Some(second.clone())
        }
        // "joined with q keeps its mark and joins inside"
        (Slice::FirstChosen(p), q) => Some(Slice::first_chosen(join_slices(p, q)?)),
        (Slice::SecondChosen(p), q) => Some(Slice::second_chosen(join_slices(p, q)?)),
        _ => None,
    }
}
