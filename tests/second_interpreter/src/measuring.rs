//! Request M-101, "How long a slice can get": the longest slice of a type.

use crate::slices::Slice;
use crate::types::Type;

/// A slice and the number of its bytes, those of level values included.
struct Measured {
    slice: Slice,
    bytes: usize,
}

/// A slice of the type "such that no slice accepted for that type makes a longer
/// one. Every cue and level has come, levels at their largest, and every sequence
/// is crossed. Where either's sides are equally long the first is chosen."
pub fn longest_slice(stream: &Type) -> Slice {
    longest_measured(stream).slice
}

/// The longest slice with its length, each part being built and measured once.
fn longest_measured(stream: &Type) -> Measured {
    match stream {
        Type::Empty => of_leaf(Slice::Empty, 1),
        Type::Cue => of_leaf(Slice::CueCome, 1),
        // "4 come, then two bytes"; "levels at their largest"
        Type::Level => of_leaf(Slice::LevelCome(u16::MAX), 3),
        // "every sequence is crossed"
        Type::Sequence(first, second) => of_both(first, second, Slice::crossed),
        Type::Beside(left, right) => of_both(left, right, Slice::beside),
        Type::Either(first, second) => of_longer(first, second),
    }
}

/// A slice without parts, of so many bytes.
fn of_leaf(slice: Slice, bytes: usize) -> Measured {
    Measured { slice, bytes }
}

/// A kind with the longest slices of both parts.
fn of_both(first: &Type, second: &Type, kind: fn(Slice, Slice) -> Slice) -> Measured {
    let first = longest_measured(first);
    let second = longest_measured(second);
    Measured {
        slice: kind(first.slice, second.slice),
        bytes: 1 + first.bytes + second.bytes,
    }
}

/// The choice of the longer side; "where either's sides are equally long the
/// first is chosen".
fn of_longer(first: &Type, second: &Type) -> Measured {
    let first = longest_measured(first);
    let second = longest_measured(second);
    if first.bytes >= second.bytes {
        of_choice(first, Slice::first_chosen)
    } else {
        of_choice(second, Slice::second_chosen)
    }
}

/// A mark and the slice of the side that it chooses.
fn of_choice(chosen: Measured, mark: fn(Slice) -> Slice) -> Measured {
    Measured {
        slice: mark(chosen.slice),
        bytes: 1 + chosen.bytes,
    }
}
