//! Where trees and their nodes lie in bytes: the root first, then its parts from left to right.

use crate::formats::kinds::node_kind::{
    BOTH, CHAIN, CHOOSE, LEVEL, MARK_FIRST, MARK_SECOND, SILENT, THEN,
};
use crate::formats::kinds::{slice_kind, type_kind};

/// Whether types of this kind have no parts. By the names of the kinds, not by the library's
/// arithmetic: a mistake in it would be made here too.
pub fn is_type_leaf(kind: u8) -> bool {
    matches!(kind, type_kind::EMPTY | type_kind::CUE | type_kind::LEVEL)
}

/// Where the type that starts at `at` ends; at the end of the bytes if it is cut short.
pub fn type_end(tree: &[u8], at: usize) -> usize {
    let mut end = at;
    let mut owed = 1;
    while owed > 0 && end < tree.len() {
        owed = if is_type_leaf(tree[end]) {
            owed - 1
        } else {
            owed + 1
        };
        end += 1;
    }
    end
}

/// Where the node of a slice that starts at `at` ends, without its parts.
fn slice_root_end(tree: &[u8], at: usize) -> usize {
    let width = if tree[at] == slice_kind::LEVEL_COME {
        3
    } else {
        1
    };
    tree.len().min(at + width)
}

/// How many parts slices of this kind have.
pub fn slice_parts(kind: u8) -> usize {
    match kind {
        slice_kind::CROSSED | slice_kind::BESIDE => 2,
        slice_kind::IN_FIRST | slice_kind::FIRST_CHOSEN | slice_kind::SECOND_CHOSEN => 1,
        _ => 0,
    }
}

/// Where the slice that starts at `at` ends; at the end of the bytes if it is cut short.
pub fn slice_end(tree: &[u8], at: usize) -> usize {
    let mut end = at;
    let mut owed = 1;
    while owed > 0 && end < tree.len() {
        owed = owed - 1 + slice_parts(tree[end]);
        end = slice_root_end(tree, end);
    }
    end
}

/// Where the nodes of a slice are, from left to right.
pub fn slice_roots(tree: &[u8]) -> Vec<usize> {
    let mut found = Vec::new();
    let mut at = 0;
    while at < tree.len() {
        found.push(at);
        at = slice_root_end(tree, at);
    }
    found
}

/// The kinds of the nodes of a slice, from left to right.
pub fn slice_kinds(tree: &[u8]) -> Vec<u8> {
    slice_roots(tree).into_iter().map(|at| tree[at]).collect()
}

/// The kinds of those nodes of a slice that are in a first part that is crossed.
pub fn in_crossed_first_parts(tree: &[u8]) -> Vec<u8> {
    let mut found = Vec::new();
    // For each slice that is still to come, whether it is in such a part.
    let mut owed = vec![false];
    for kind in slice_kinds(tree) {
        let inside = owed.pop().unwrap_or_default();
        if inside {
            found.push(kind);
        }
        owed.extend(vec![inside; slice_parts(kind)]);
        if kind == slice_kind::CROSSED {
            owed.pop();
            owed.push(true);
        }
    }
    found
}

/// Whether slices of this kind choose a part of an either.
pub fn is_choice(kind: u8) -> bool {
    matches!(kind, slice_kind::FIRST_CHOSEN | slice_kind::SECOND_CHOSEN)
}

/// How many choices a slice makes.
pub fn choices(tree: &[u8]) -> u64 {
    let kinds = slice_kinds(tree).into_iter();
    kinds.filter(|kind| is_choice(*kind)).count() as u64
}

/// Whether slices of this kind are a cue or a level that has come.
pub fn is_arrival(kind: u8) -> bool {
    matches!(kind, slice_kind::CUE_COME | slice_kind::LEVEL_COME)
}

/// How many cues and levels have come in a slice.
pub fn arrivals(tree: &[u8]) -> u32 {
    let kinds = slice_kinds(tree).into_iter();
    kinds.filter(|kind| is_arrival(*kind)).count() as u32
}

/// How many of them are in first parts that are crossed.
pub fn crossed_arrivals(tree: &[u8]) -> u32 {
    let kinds = in_crossed_first_parts(tree).into_iter();
    kinds.filter(|kind| is_arrival(*kind)).count() as u32
}

/// Whether a slice brings anything: a cue, a level, a crossing or a choice. The empty slice of a
/// type brings nothing, and every other slice of it does.
pub fn brings(tree: &[u8]) -> bool {
    slice_roots(tree).into_iter().any(|at| {
        !matches!(
            tree[at],
            slice_kind::NOTHING
                | slice_kind::CUE_AWAITED
                | slice_kind::LEVEL_AWAITED
                | slice_kind::IN_FIRST
                | slice_kind::BESIDE
                | slice_kind::NONE_CHOSEN
        )
    })
}

/// The root of a node, and how deep it lies; the outermost has depth 1.
#[derive(Clone, Copy, Debug)]
pub struct Root {
    pub at: usize,
    pub depth: usize,
}

/// The roots of the nodes in a node section, count included, from left to right. Of a damaged
/// section it finds those that come first.
pub fn roots(section: &[u8]) -> Vec<Root> {
    let mut found = Vec::new();
    let mut owed = vec![1];
    let mut at = 2;
    while let Some(depth) = owed.pop() {
        let Some(&kind) = section.get(at) else {
            break;
        };
        found.push(Root { at, depth });
        at = match kind {
            LEVEL => at + 3,
            _ if carries_type(kind) => type_end(section, at + 1),
            _ => at + 1,
        };
        if is_node_fork(kind) {
            owed.extend([depth + 1; 2]);
        }
    }
    found
}

/// Whether nodes of this kind have two parts.
pub fn is_node_fork(kind: u8) -> bool {
    matches!(kind, BOTH | THEN | CHAIN | CHOOSE)
}

/// Whether nodes of this kind carry a type.
pub fn carries_type(kind: u8) -> bool {
    matches!(kind, SILENT | MARK_FIRST | MARK_SECOND)
}
