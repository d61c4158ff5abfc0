//! The rows of Check.

use comparison::formats::files::{patch, section};
use comparison::formats::kinds::node_kind::{
    BOTH, CHAIN, CHOOSE, FIRST, FRONT, LEFT, MARK_FIRST, PASS, RIGHT, SECOND, SILENT, SPREAD,
};
use comparison::formats::kinds::type_kind::{BESIDE, CUE, EITHER, EMPTY, LEVEL};
use comparison::formats::totals::totals_section;
use comparison::Operation;
use second_interpreter::Totals;

use crate::nodes::{
    chains, choose_of_marks, choosing, cue_then_lanes, lanes, largest, marking, nodes_of, seeking,
    silent_largest, tree_of, LEAF_TYPE, MOST_NODES, PATCH_SIZES,
};
use crate::rows::{claiming, grown, lengthened, Group, Row, GROWTHS, LARGEST};
use crate::streams::{type_tree, Shape};

fn row(group: Group, name: &str, file: Vec<u8>) -> Row {
    Row {
        group,
        name: name.to_string(),
        operation: Operation::Check,
        files: vec![file],
    }
}

/// Small, typical and largest calls.
pub fn legal() -> Vec<Row> {
    let typical = [
        CHAIN, SPREAD, BOTH, CHAIN, LEFT, SECOND, CHAIN, RIGHT, SECOND,
    ];
    let balanced = type_tree(Shape::Balanced, 31);
    let mut rows = vec![
        row(
            Group::Legal,
            "small, swap",
            patch(&[BESIDE, CUE, LEVEL], &[BOTH, RIGHT, LEFT]),
        ),
        row(Group::Legal, "typical, 9 nodes", patch(&balanced, &typical)),
    ];
    for (shape, name) in Shape::ALL {
        for (kind, file) in largest(shape).into_iter().chain(choosing(shape)) {
            let name = format!("63 nodes, {kind}, {name}");
            rows.push(row(Group::Legal, &name, file));
        }
        let name = format!("59 nodes, marks and chooses, {name}");
        rows.push(row(Group::Legal, &name, marking(shape)));
    }
    for (name, file) in chains() {
        let name = format!("63 nodes, chains of {name}");
        rows.push(row(Group::Legal, &name, file));
    }
    for (name, file) in seeking() {
        let name = format!("63 nodes, {name}");
        rows.push(row(Group::Legal, &name, file));
    }
    for (name, tree, nodes) in giving_largest() {
        let name = format!("gives 255, {name}");
        rows.push(row(Group::Legal, &name, patch(&tree, &nodes)));
    }
    rows
}

/// Small patches that give a type of 255 nodes, by their types and nodes.
fn giving_largest() -> [(&'static str, Vec<u8>, Vec<u8>); 7] {
    let mark = [&[MARK_FIRST], lanes(127, CUE).as_slice()].concat();
    let (halves, marks) = choose_of_marks();
    [
        ("pass", lanes(LARGEST, CUE), vec![PASS]),
        ("silent", vec![CUE], silent_largest()),
        ("front", lanes(LARGEST - 2, CUE), vec![FRONT]),
        ("both", lanes(127, CUE), vec![BOTH, PASS, PASS]),
        ("spread", cue_then_lanes(LARGEST - 2), vec![SPREAD]),
        ("mark first", lanes(127, CUE), mark),
        ("choose of marks", halves, marks),
    ]
}

/// One node on types of a growing size: the group, a name, and the patch.
pub fn pass_on_growing_types() -> Vec<(Group, String, Vec<u8>)> {
    (grown(&GROWTHS).into_iter())
        .map(|(group, name, tree)| {
            let name = format!("pass, {name} in the type");
            (group, name, patch(&tree, &[PASS]))
        })
        .collect()
}

/// One node on types of a growing size, and patches of a growing number of nodes.
pub fn growing() -> Vec<Row> {
    let silent = [&[SILENT], lanes(LEAF_TYPE, EMPTY).as_slice()].concat();
    let mut patches = pass_on_growing_types();
    patches.extend(growing_patches(OF_PASS, &[PASS]));
    patches.extend(growing_patches(OF_SILENT, &silent));
    patches.extend(growing_chooses());
    patches
        .into_iter()
        .map(|(group, name, file)| row(group, &name, file))
        .collect()
}

/// Patches that are followed as they grow: their name, their shape and the kind of their forks.
type Series = (&'static str, Shape, u8);

/// With the least that can be at a leaf.
pub const OF_PASS: [Series; 3] = [
    ("pairs of pass, balanced", Shape::Balanced, BOTH),
    ("chains of pass, deep left", Shape::DeepLeft, CHAIN),
    ("chains of pass, deep right", Shape::DeepRight, CHAIN),
];

/// With a type at each leaf.
const OF_SILENT: [Series; 3] = [
    ("pairs of silent, balanced", Shape::Balanced, BOTH),
    ("chains of silent, deep left", Shape::DeepLeft, CHAIN),
    ("chains of silent, deep right", Shape::DeepRight, CHAIN),
];

/// Patches on one cue, all leaves alike: the group, a name, and the patch.
pub fn growing_patches(all: [Series; 3], leaf: &[u8]) -> Vec<(Group, String, Vec<u8>)> {
    let mut patches = Vec::new();
    for (series, shape, fork) in all {
        for nodes in PATCH_SIZES {
            let group = Group::Growing {
                series,
                nodes,
                largest: MOST_NODES,
            };
            let tree = tree_of(shape, nodes, fork, &|_| leaf.to_vec());
            let name = format!("{series}, {nodes} nodes");
            patches.push((group, name, patch(&[CUE], &tree)));
        }
    }
    patches
}

/// Choices between choices of a cue, and as many chooses: the group, a name, and the patch.
pub fn growing_chooses() -> Vec<(Group, String, Vec<u8>)> {
    let mut patches = Vec::new();
    for (series, shape) in [
        ("chooses of pass, balanced", Shape::Balanced),
        ("chooses of pass, deep right", Shape::DeepRight),
    ] {
        for nodes in PATCH_SIZES {
            let group = Group::Growing {
                series,
                nodes,
                largest: MOST_NODES,
            };
            let stream = tree_of(shape, nodes, EITHER, &|_| vec![CUE]);
            let tree = tree_of(shape, nodes, CHOOSE, &|_| vec![PASS]);
            patches.push((
                group,
                format!("{series}, {nodes} nodes"),
                patch(&stream, &tree),
            ));
        }
    }
    patches
}

/// Refused calls: with long files, and with the fault at the very end of the largest patches.
pub fn refused() -> Vec<Row> {
    let mut rows = long_files();
    rows.extend(faults_at_the_end());
    rows.into_iter()
        .map(|(name, file)| row(Group::Refused, name, file))
        .collect()
}

fn long_files() -> Vec<(&'static str, Vec<u8>)> {
    let tree = section(&lanes(LARGEST, CUE));
    let nodes = section(&nodes_of(Shape::DeepRight, CHAIN, &silent_largest()));
    let totals = totals_section(Totals::default());
    let both = |tree: &[u8], nodes: &[u8]| [tree, nodes, &totals].concat();
    let too_many = tree_of(Shape::DeepRight, 65, CHAIN, &|_| silent_largest());
    vec![
        (
            "patch file of a mebibyte",
            lengthened(&both(&tree, &nodes), 1 << 20),
        ),
        (
            "type claims 65,535 bytes, short",
            both(&claiming(tree.clone()), &nodes),
        ),
        (
            "type claims 65,535 bytes, full",
            claiming(lengthened(&tree, 65_537)),
        ),
        (
            "nodes claim 65,535 bytes, short",
            both(&tree, &claiming(nodes.clone())),
        ),
        (
            "nodes claim 65,535 bytes, full",
            both(&tree, &claiming(lengthened(&nodes, 65_537))),
        ),
        (
            "65,535 forks in the type",
            both(&section(&[BESIDE; 65_535]), &nodes),
        ),
        ("65,535 chains", both(&tree, &section(&[CHAIN; 65_535]))),
        (
            "65 nodes, silent with 255",
            both(&tree, &section(&too_many)),
        ),
    ]
}

/// The largest patches with a fault in their last leaf, or in what all of it gives.
fn faults_at_the_end() -> Vec<(&'static str, Vec<u8>)> {
    let last = MOST_NODES / 2;
    let ending = |shape, fork, leaf: &[u8], end: &[u8]| {
        tree_of(shape, MOST_NODES, fork, &|place| {
            if place == last { end } else { leaf }.to_vec()
        })
    };
    let widest = lanes(LARGEST, CUE);
    let leaf_type = type_tree(Shape::Balanced, LEAF_TYPE);
    let not_nullable = [&[SILENT], lanes(LARGEST, CUE).as_slice()].concat();
    let silent = silent_largest();
    let mut rows = Vec::new();
    for (name, shape) in [
        ("wrong shape in the last node, deep left", Shape::DeepLeft),
        ("wrong shape in the last node, deep right", Shape::DeepRight),
    ] {
        let nodes = ending(shape, CHAIN, &[PASS], &[FIRST]);
        rows.push((name, patch(&widest, &nodes)));
    }
    let nodes = ending(Shape::DeepRight, CHAIN, &silent, &not_nullable);
    rows.push(("not nullable in the last node", patch(&widest, &nodes)));
    let nodes = ending(Shape::Balanced, BOTH, &[PASS], &[FRONT]);
    rows.push(("pairs give 257 in all", patch(&leaf_type, &nodes)));
    let nodes = nodes_of(Shape::DeepRight, BOTH, &[PASS]);
    rows.push(("pairs of 255 each", patch(&widest, &nodes)));
    rows.extend(differing_outputs());
    rows
}

/// Chooses to types of one size that differ: in their last node, and behind all other chooses.
fn differing_outputs() -> [(&'static str, Vec<u8>); 2] {
    let half = lanes(127, CUE);
    let mut other_half = half.clone();
    other_half[126] = LEVEL;
    let halves = [&[EITHER], half.as_slice(), &other_half].concat();
    let streams = tree_of(Shape::DeepRight, MOST_NODES, EITHER, &|_| vec![CUE]);
    let nested_left = tree_of(Shape::DeepLeft, LARGEST, BESIDE, &|_| vec![EMPTY]);
    let other_silent = [&[SILENT], nested_left.as_slice()].concat();
    let last = MOST_NODES / 2;
    let nodes = tree_of(Shape::DeepRight, MOST_NODES, CHOOSE, &|place| {
        if place == last {
            other_silent.clone()
        } else {
            silent_largest()
        }
    });
    [
        (
            "choose to types that differ at the end",
            patch(&halves, &[CHOOSE, PASS, PASS]),
        ),
        ("last choose to other types", patch(&streams, &nodes)),
    ]
}
