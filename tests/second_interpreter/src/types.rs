//! Stream types: "0 empty, 1 cue, 2 level (0 to 65,535), 3 sequence (two parts,
//! one after the other), 4 side by side (two parts)"; from M-100 "type 5,
//! either, with two parts".

/// A stream type as a tree.
#[derive(Clone, Debug, PartialEq, Eq)]
pub enum Type {
    /// Kind 0: nothing comes.
    Empty,
    /// Kind 1: one cue.
    Cue,
    /// Kind 2: one level of 0 to 65,535.
    Level,
    /// Kind 3: two parts, one after the other.
    Sequence(Box<Type>, Box<Type>),
    /// Kind 4: two parts side by side.
    Beside(Box<Type>, Box<Type>),
    /// Kind 5: one of two parts, once it is chosen.
    Either(Box<Type>, Box<Type>),
}

impl Type {
    /// "At most 255 nodes in a type, counted as a tree, wherever it arises."
    pub const LIMIT: usize = 255;

    /// Kind 3 with these parts.
    pub fn sequence(first: Type, second: Type) -> Self {
        Type::Sequence(Box::new(first), Box::new(second))
    }

    /// Kind 4 with these parts.
    pub fn beside(left: Type, right: Type) -> Self {
        Type::Beside(Box::new(left), Box::new(right))
    }

    /// Kind 5 with these parts.
    pub fn either(first: Type, second: Type) -> Self {
        Type::Either(Box::new(first), Box::new(second))
    }

    /// "A type is *nullable* if it is 0, or 4 with both parts nullable.
    /// Sequence is never nullable." Either is neither of these, so never too.
    pub fn is_nullable(&self) -> bool {
        match self {
            Type::Empty => true,
            Type::Cue | Type::Level | Type::Sequence(..) | Type::Either(..) => false,
            Type::Beside(left, right) => left.is_nullable() && right.is_nullable(),
        }
    }

    /// The number of nodes, "counted as a tree".
    pub fn size(&self) -> usize {
        match self {
            Type::Empty | Type::Cue | Type::Level => 1,
            Type::Sequence(one, other) | Type::Beside(one, other) | Type::Either(one, other) => {
                1 + one.size() + other.size()
            }
        }
    }

    /// The two parts, if this is a sequence.
    pub fn sequence_parts(&self) -> Option<(&Type, &Type)> {
        match self {
            Type::Sequence(first, second) => Some((first, second)),
            _ => None,
        }
    }

    /// The two parts, if this is a side by side.
    pub fn beside_parts(&self) -> Option<(&Type, &Type)> {
        match self {
            Type::Beside(left, right) => Some((left, right)),
            _ => None,
        }
    }

    /// The two parts, if this is an either.
    pub fn either_parts(&self) -> Option<(&Type, &Type)> {
        match self {
            Type::Either(first, second) => Some((first, second)),
            _ => None,
        }
    }
}
