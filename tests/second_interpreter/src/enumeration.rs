//! Every type of a size and every slice of a type, found by building trees up.
//!
//! These are for small trees, and for those who test or compare; no operation
//! uses them.

use crate::files::slice_file;
use crate::slices::Slice;
use crate::types::Type;

/// The values that stand for all those of a level: 0, which is not "not yet", one
/// in either byte alone, and the largest.
const VALUES: [u16; 4] = [0, 1, 256, u16::MAX];

/// All types of exactly so many nodes, none if the number is even.
pub fn every_type(nodes: usize) -> Vec<Type> {
    if nodes == 1 {
        return vec![Type::Empty, Type::Cue, Type::Level];
    }
    let mut types = Vec::new();
    for first in 1..nodes.saturating_sub(1) {
        for one in every_type(first) {
            for other in every_type(nodes - 1 - first) {
                types.push(Type::sequence(one.clone(), other.clone()));
                types.push(Type::beside(one.clone(), other.clone()));
                types.push(Type::either(one.clone(), other));
            }
        }
    }
    types
}

/// All slices of a type, but of a level's values only 0, 1, 256 and 65,535.
pub fn every_slice(stream: &Type) -> Vec<Slice> {
    match stream {
        Type::Empty => vec![Slice::Empty],
        Type::Cue => vec![Slice::CueNotYet, Slice::CueCome],
        Type::Level => {
            let mut slices = vec![Slice::LevelNotYet];
            slices.extend(VALUES.map(Slice::LevelCome));
            slices
        }
        Type::Sequence(s, t) => {
            let firsts = every_slice(s);
            let mut slices: Vec<Slice> = firsts.iter().cloned().map(Slice::uncrossed).collect();
            // "6, *crossed*, then a complete slice of the first part"
            let complete: Vec<Slice> = firsts.into_iter().filter(Slice::is_complete).collect();
            slices.extend(every_pair(&complete, &every_slice(t), Slice::crossed));
            slices
        }
        Type::Beside(s, t) => every_pair(&every_slice(s), &every_slice(t), Slice::beside),
        Type::Either(s, t) => {
            let mut slices = vec![Slice::NoneChosen];
            slices.extend(every_slice(s).into_iter().map(Slice::first_chosen));
            slices.extend(every_slice(t).into_iter().map(Slice::second_chosen));
            slices
        }
    }
}

/// A kind with each of the ones and each of the others.
fn every_pair(ones: &[Slice], others: &[Slice], kind: fn(Slice, Slice) -> Slice) -> Vec<Slice> {
    let mut slices = Vec::with_capacity(ones.len() * others.len());
    for one in ones {
        for other in others {
            slices.push(kind(one.clone(), other.clone()));
        }
    }
    slices
}

/// The number of bytes past which "no slice accepted for that type makes a longer"
/// slice file (M-101), found by making the files of all slices.
pub fn longest_by_trying(stream: &Type) -> usize {
    let files = every_slice(stream)
        .into_iter()
        .map(|slice| slice_file(&slice));
    let lengths = files.map(|file| file.len());
    lengths.max().expect("every type has a slice")
}
