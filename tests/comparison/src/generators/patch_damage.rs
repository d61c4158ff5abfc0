//! The ways in which a patch file can be damaged: each section as any other file, all together, its
//! nodes so that only the second pass can tell, and its totals, alone and beside such a fault.

use crate::formats::files::{count, section, set_count};
use crate::formats::kinds::node_kind::{
    BOTH, CHAIN, CHOOSE, CUE, FIRST, FRONT, LEFT, LEVEL, MARK_FIRST, MARK_SECOND, PASS,
    REGROUP_LEFT, REGROUP_RIGHT, RIGHT, SECOND, SILENT, SPREAD, THEN,
};
use crate::formats::kinds::type_kind;
use crate::formats::preorder::{carries_type, is_node_fork, is_type_leaf, roots, type_end};
use crate::generators::damage::{damage, few_bytes, type_about_the_limit, NODE_KINDS, TYPE_KINDS};
use crate::generators::patches::{any_patch, patch_of, MOST_FORKS};
use crate::generators::random::Random;
use crate::generators::totals::damage_totals;
use crate::generators::types::{self, write_type, Style};

/// The kinds of nodes with two parts.
const FORKS: [u8; 4] = [BOTH, THEN, CHAIN, CHOOSE];

/// The kinds of nodes that carry a type.
const CARRIERS: [u8; 3] = [SILENT, MARK_FIRST, MARK_SECOND];

/// The kinds of types with two parts.
const TYPE_FORKS: [u8; 3] = [type_kind::SEQUENCE, type_kind::BESIDE, type_kind::EITHER];

/// The kinds of nodes that have no parts and carry nothing.
const BARE: [u8; 10] = [
    PASS,
    CUE,
    LEFT,
    RIGHT,
    FIRST,
    SECOND,
    REGROUP_RIGHT,
    REGROUP_LEFT,
    SPREAD,
    FRONT,
];

/// No request lists this kind.
const UNLISTED: u8 = 200;

/// Puts a fault in a patch file, or at least changes it.
pub fn damage_patch(random: &mut Random, file: &mut Vec<u8>) {
    let mut nodes = split(file);
    let mut totals = split(&mut nodes);
    match random.below(22) {
        0 => *file = type_about_the_limit(random),
        1 => nodes = nodes_about_the_limit(random),
        2 => carry_about_the_limit(random, &mut nodes),
        3 => (*file, nodes) = given_about_the_limit(random),
        // The nodes of one patch on the type of another.
        4 => {
            *file = any_patch(random);
            split(file);
        }
        5 => (*file, nodes) = (few_bytes(random, TYPE_KINDS), few_bytes(random, NODE_KINDS)),
        6 => {
            file.append(&mut nodes);
            file.append(&mut totals);
            damage(random, file, NODE_KINDS);
        }
        7..=8 => damage(random, file, TYPE_KINDS),
        9..=10 => damage(random, &mut nodes, NODE_KINDS),
        11..=13 => refit(random, &mut nodes),
        14..=15 => (*file, nodes) = outputs_that_differ(random),
        16..=17 => {
            refit(random, &mut nodes);
            refit(random, &mut nodes);
        }
        18..=19 => damage_totals(random, &mut totals),
        _ => {
            damage_totals(random, &mut totals);
            (*file, nodes) = fault_of_the_second_pass(random);
        }
    }
    file.append(&mut nodes);
    file.append(&mut totals);
}

/// The type and the nodes of a patch that can be read and often has a fault: 4, 6, 7 or 30.
fn fault_of_the_second_pass(random: &mut Random) -> (Vec<u8>, Vec<u8>) {
    match random.below(3) {
        0 => given_about_the_limit(random),
        1 => outputs_that_differ(random),
        _ => {
            let mut file = any_patch(random);
            let mut nodes = split(&mut file);
            split(&mut nodes);
            refit(random, &mut nodes);
            (file, nodes)
        }
    }
}

/// Takes off a file what is behind its first section.
fn split(file: &mut Vec<u8>) -> Vec<u8> {
    let end = file.len().min(2 + count(file));
    file.split_off(end)
}

/// Another kind in place of a node's, with as many parts: all can be read, and often a shape is
/// wrong, or the nodes of a choose give different types. In the type that a node carries it is
/// another kind of type, and often the type is no longer nullable.
fn refit(random: &mut Random, nodes: &mut [u8]) {
    let roots = roots(nodes);
    if roots.is_empty() {
        return;
    }
    let at = roots[random.below(roots.len())].at;
    match nodes[at] {
        kind if carries_type(kind) && random.chance(30) => nodes[at] = random.pick(&CARRIERS),
        kind if carries_type(kind) => {
            let end = type_end(nodes, at + 1);
            if at + 1 < end {
                let place = random.between(at + 1, end - 1);
                nodes[place] = other_type_kind(random, nodes[place]);
            }
        }
        LEVEL => {}
        kind if is_node_fork(kind) => nodes[at] = random.pick(&FORKS),
        _ => nodes[at] = random.pick(&BARE),
    }
}

/// Another kind of type with as many parts.
fn other_type_kind(random: &mut Random, kind: u8) -> u8 {
    let kinds: &[u8] = if is_type_leaf(kind) {
        &[type_kind::EMPTY, type_kind::CUE, type_kind::LEVEL]
    } else {
        &TYPE_FORKS
    };
    let others: Vec<u8> = (kinds.iter().copied())
        .filter(|other| *other != kind)
        .collect();
    random.pick(&others)
}

/// A node section about the limit of 63 nodes: too large, cut there, or forks and nothing more.
fn nodes_about_the_limit(random: &mut Random) -> Vec<u8> {
    let nullable = [type_kind::BESIDE, type_kind::EMPTY, type_kind::EMPTY];
    let silent = [&[CHAIN, SILENT], nullable.as_slice()].concat();
    let part = random.pick::<&[u8]>(&[
        &[CHAIN, PASS],
        &[BOTH, CUE],
        &silent,
        &[BOTH, LEVEL, 10, 10],
        &[CHOOSE, PASS],
        &[CHAIN, MARK_FIRST, type_kind::CUE],
    ]);
    let mut tree = part.repeat(MOST_FORKS);
    match random.below(5) {
        0 => {
            let fork = random.pick(&FORKS);
            tree = vec![fork; random.pick(&[30, 31, 32, 61, 62, 63, 64, 65, 300])];
        }
        1 => {
            tree.push(random.pick(&[PASS, BOTH, CHAIN, UNLISTED]));
            tree.truncate(tree.len() - random.below(4));
        }
        2 => tree.extend([random.pick(&[PASS, CHAIN]), random.pick(&[PASS, UNLISTED])]),
        _ => {
            let forks = random.between(MOST_FORKS, MOST_FORKS + 3);
            let mut nodes = split(&mut patch_of(random, forks));
            split(&mut nodes);
            return nodes;
        }
    }
    section(&tree)
}

/// A type about the limit of 255 nodes, carried in place of a node without parts.
fn carry_about_the_limit(random: &mut Random, nodes: &mut Vec<u8>) {
    let roots = roots(nodes);
    let leaves: Vec<usize> = (roots.iter().map(|root| root.at))
        .filter(|at| !is_node_fork(nodes[*at]))
        .collect();
    if leaves.is_empty() {
        return;
    }
    let mut carried = type_about_the_limit(random).split_off(2);
    if random.chance(60) {
        make_nullable(&mut carried);
    }
    let at = leaves[random.below(leaves.len())];
    let end = roots.iter().map(|root| root.at).find(|next| *next > at);
    let end = end.unwrap_or(nodes.len());
    let carrier = random.pick(&[SILENT, SILENT, MARK_FIRST, MARK_SECOND]);
    nodes.splice(at..end, [&[carrier], carried.as_slice()].concat());
    let contents = nodes.len() - 2;
    set_count(nodes, contents);
}

/// Nothing but empty types side by side, where a kind is listed.
fn make_nullable(tree: &mut [u8]) {
    for kind in tree {
        *kind = match *kind {
            leaf if is_type_leaf(leaf) => type_kind::EMPTY,
            type_kind::SEQUENCE | type_kind::EITHER => type_kind::BESIDE,
            other => other,
        };
    }
}

/// The sections of a small patch on a large type: what a node gives is about the limit of 255
/// nodes, and often there is another fault beside it.
fn given_about_the_limit(random: &mut Random) -> (Vec<u8>, Vec<u8>) {
    let nodes = random.pick::<&[u8]>(&[
        &[FRONT],
        &[SPREAD],
        &[BOTH, PASS, CUE],
        &[BOTH, CUE, PASS],
        &[BOTH, PASS, LEFT],
        &[BOTH, PASS, SILENT, type_kind::CUE],
        &[BOTH, FRONT, FIRST],
        &[THEN, FRONT, PASS],
        &[THEN, PASS, FRONT],
        &[THEN, FRONT, LEFT],
        &[CHAIN, FRONT, SECOND],
        &[CHAIN, FRONT, LEFT],
        &[CHAIN, FRONT, FRONT],
        &[CHAIN, SPREAD, BOTH, LEFT, SILENT, type_kind::CUE],
        &[CHAIN, BOTH, PASS, CUE, LEFT],
        &[MARK_FIRST, type_kind::EMPTY],
        &[CHAIN, MARK_SECOND, type_kind::CUE, LEFT],
        &[CHOOSE, MARK_FIRST, type_kind::CUE, LEFT],
    ]);
    let style = Style::any(random);
    let forks = random.between(124, 127);
    let mut tree = Vec::new();
    write_type(random, &style, forks, &mut tree);
    (section(&tree), section(nodes))
}

/// The sections of a small patch in which the nodes of a choose give types that often differ, and
/// if they do then in one node: they have the same size.
fn outputs_that_differ(random: &mut Random) -> (Vec<u8>, Vec<u8>) {
    let style = Style::any(random);
    let forks = random.pick(&[0, 1, 3, 10, 62, 63]);
    let mut first = Vec::new();
    write_type(random, &style, forks, &mut first);
    let mut second = first.clone();
    if random.chance(80) {
        let any = random.below(second.len());
        let at = random.pick(&[0, any, second.len() - 1]);
        second[at] = other_type_kind(random, second[at]);
    }
    let tree = [&[type_kind::EITHER], first.as_slice(), &second].concat();
    (section(&tree), section(&choosing_nodes(random)))
}

/// A choose on the parts of an either, often with another fault beside it.
fn choosing_nodes(random: &mut Random) -> Vec<u8> {
    let largest = [type_kind::BESIDE, type_kind::EMPTY].repeat(types::MOST_FORKS);
    let beside_largest = [&[BOTH, SILENT], largest.as_slice(), &[type_kind::EMPTY]].concat();
    let pass_beside = [beside_largest.as_slice(), &[CHOOSE, PASS, PASS]].concat();
    let cues_beside = [beside_largest.as_slice(), &[CHOOSE, CUE, CUE]].concat();
    let nodes = random.pick::<&[u8]>(&[
        &[CHOOSE, PASS, PASS],
        &[CHOOSE, FRONT, FRONT],
        &[CHOOSE, CUE, LEVEL, 7, 7],
        &[CHOOSE, PASS, LEFT],
        &[CHOOSE, FIRST, PASS],
        &[CHOOSE, PASS, SILENT, type_kind::CUE],
        &[
            CHOOSE,
            MARK_FIRST,
            type_kind::CUE,
            MARK_SECOND,
            type_kind::CUE,
        ],
        &[BOTH, CHOOSE, PASS, PASS, SILENT, type_kind::CUE],
        &[BOTH, LEFT, CHOOSE, PASS, PASS],
        &[BOTH, PASS, CHOOSE, PASS, PASS],
        &[CHAIN, CHOOSE, PASS, PASS, FIRST],
        &[CHAIN, PASS, CHOOSE, PASS, PASS],
        &[CHAIN, CHOOSE, CUE, CUE, CHOOSE, PASS, PASS],
        &pass_beside,
        &cues_beside,
    ]);
    nodes.to_vec()
}
