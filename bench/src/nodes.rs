//! Patches as the bytes of their trees; nothing here is random.

use comparison::formats::files::patch;
use comparison::formats::kinds::node_kind::{
    self, BOTH, CHAIN, CHOOSE, FRONT, LEFT, MARK_FIRST, MARK_SECOND, PASS, REGROUP_LEFT,
    REGROUP_RIGHT, RIGHT, SECOND, SILENT, THEN,
};
use comparison::formats::kinds::type_kind::{BESIDE, CUE, EITHER, EMPTY, LEVEL, SEQUENCE};

use crate::rows::LARGEST;
use crate::streams::{type_tree, Shape};

/// The nodes of the largest patch; it has 31 forks and 32 leaves.
pub const MOST_NODES: usize = 63;

/// The sizes, in nodes, at which a patch is followed as it grows.
pub const PATCH_SIZES: [usize; 5] = [3, 7, 15, 31, MOST_NODES];

/// 31 forks above 32 types of so many nodes make a type of 255.
pub const LEAF_TYPE: usize = 7;

/// A tree of so many nodes, not counting what its leaves carry: forks of one kind in this shape,
/// and the leaves from left to right as they are told by their place.
pub fn tree_of(shape: Shape, nodes: usize, fork: u8, leaf: &dyn Fn(usize) -> Vec<u8>) -> Vec<u8> {
    let mut tree = Vec::new();
    write_tree(shape, nodes / 2, fork, leaf, &mut 0, &mut tree);
    tree
}

fn write_tree(
    shape: Shape,
    forks: usize,
    fork: u8,
    leaf: &dyn Fn(usize) -> Vec<u8>,
    leaves: &mut usize,
    tree: &mut Vec<u8>,
) {
    if forks == 0 {
        tree.extend(leaf(*leaves));
        *leaves += 1;
        return;
    }
    tree.push(fork);
    let first = shape.in_first(forks - 1);
    write_tree(shape, first, fork, leaf, leaves, tree);
    write_tree(shape, forks - 1 - first, fork, leaf, leaves, tree);
}

/// The largest patch with one kind of fork, all leaves alike.
pub fn nodes_of(shape: Shape, fork: u8, leaf: &[u8]) -> Vec<u8> {
    tree_of(shape, MOST_NODES, fork, &|_| leaf.to_vec())
}

/// A cue beside a cue, and so on: a type of so many nodes, or an empty one that is nullable.
pub fn lanes(nodes: usize, leaf: u8) -> Vec<u8> {
    tree_of(Shape::DeepRight, nodes, BESIDE, &|_| vec![leaf])
}

/// A cue, and then lanes: a type of so many nodes that can be spread.
pub fn cue_then_lanes(nodes: usize) -> Vec<u8> {
    [&[SEQUENCE, CUE], lanes(nodes - 2, CUE).as_slice()].concat()
}

/// Choices between choices, down to a cue or a level: a type of so many nodes.
pub fn eithers(shape: Shape, nodes: usize) -> Vec<u8> {
    tree_of(shape, nodes, EITHER, &|place| vec![[CUE, LEVEL][place % 2]])
}

/// So many choices between a cue and a level, side by side; each takes four nodes, the last three.
pub fn choices(count: usize) -> Vec<u8> {
    tree_of(Shape::Balanced, 2 * count - 1, BESIDE, &|_| {
        vec![EITHER, CUE, LEVEL]
    })
}

/// The largest first part of choices, and then a cue.
pub fn choices_then_cue() -> Vec<u8> {
    [&[SEQUENCE], choices(63).as_slice(), &[CUE]].concat()
}

/// Silent with a type of 255 nodes.
pub fn silent_largest() -> Vec<u8> {
    [&[SILENT], lanes(LARGEST, EMPTY).as_slice()].concat()
}

/// The largest patches of one shape; each gives a type of 255 nodes.
pub fn largest(shape: Shape) -> [(&'static str, Vec<u8>); 4] {
    let leaf_type = type_tree(Shape::Balanced, LEAF_TYPE);
    let sequences = tree_of(shape, MOST_NODES, SEQUENCE, &|_| leaf_type.clone());
    let widest = type_tree(Shape::Balanced, LARGEST);
    [
        ("pairs", patch(&leaf_type, &nodes_of(shape, BOTH, &[PASS]))),
        ("thens", patch(&sequences, &nodes_of(shape, THEN, &[PASS]))),
        ("chains", patch(&widest, &nodes_of(shape, CHAIN, &[PASS]))),
        (
            "silent with 255",
            patch(&widest, &nodes_of(shape, CHAIN, &silent_largest())),
        ),
    ]
}

/// The largest patches that choose again and again, of one shape: between streams, and between
/// patches that give a type of 255 nodes.
pub fn choosing(shape: Shape) -> [(&'static str, Vec<u8>); 2] {
    let leaf_type = type_tree(Shape::Balanced, LEAF_TYPE);
    let tree = tree_of(shape, MOST_NODES, EITHER, &|_| leaf_type.clone());
    let silent = silent_largest();
    [
        ("chooses", patch(&tree, &nodes_of(shape, CHOOSE, &[PASS]))),
        (
            "chooses of silent 255",
            patch(&tree, &nodes_of(shape, CHOOSE, &silent)),
        ),
    ]
}

/// Chains in which a type of 127 nodes is marked as chosen, and then taken for chosen: 59 nodes.
pub fn marking(shape: Shape) -> Vec<u8> {
    let half = lanes(127, CUE);
    let mark = |place: usize| [MARK_FIRST, MARK_SECOND][place % 2];
    let nodes = tree_of(shape, 19, CHAIN, &|place| {
        [
            &[CHAIN, mark(place)],
            half.as_slice(),
            &[CHOOSE, PASS, PASS],
        ]
        .concat()
    });
    patch(&half, &nodes)
}

/// Two halves of which one is chosen, and nodes that give the same choice again.
pub fn choose_of_marks() -> (Vec<u8>, Vec<u8>) {
    let half = lanes(127, LEVEL);
    let tree = [&[EITHER], half.as_slice(), &half].concat();
    let nodes = [
        &[CHOOSE, MARK_FIRST],
        half.as_slice(),
        &[MARK_SECOND],
        &half,
    ]
    .concat();
    (tree, nodes)
}

/// The largest patches along which one type of about 255 nodes is changed again and again.
pub fn chains() -> [(&'static str, Vec<u8>); 3] {
    let three_parts = tree_of(Shape::DeepLeft, 5, SEQUENCE, &|place| {
        lanes(if place == 0 { 83 } else { 85 }, CUE)
    });
    let regroups = tree_of(Shape::DeepRight, MOST_NODES, CHAIN, &|place| {
        vec![if place % 2 == 0 {
            REGROUP_RIGHT
        } else {
            REGROUP_LEFT
        }]
    });
    let swap = [BOTH, RIGHT, LEFT];
    let swaps = tree_of(Shape::DeepRight, 31, CHAIN, &|_| swap.to_vec());
    let fronts = nodes_of(Shape::DeepLeft, CHAIN, &[FRONT]);
    [
        ("regroups", patch(&three_parts, &regroups)),
        ("swaps", patch(&lanes(LARGEST, CUE), &swaps)),
        ("fronts", patch(&lanes(LARGEST - 64, CUE), &fronts)),
    ]
}

/// The largest patches that look for a part behind a large one again and again, and give little:
/// the second interpreter follows a pointer where the library walks over the large part.
pub fn seeking() -> [(&'static str, Vec<u8>); 3] {
    let sequences = tree_of(Shape::DeepLeft, LARGEST, SEQUENCE, &|_| vec![CUE]);
    let lanes_then_cue = [&[SEQUENCE], lanes(LARGEST - 2, CUE).as_slice(), &[CUE]].concat();
    let thens = |leaf| nodes_of(Shape::DeepLeft, THEN, &[leaf]);
    let seconds = nodes_of(Shape::Balanced, BOTH, &[SECOND]);
    [
        (
            "thens of pass on 127 sequences",
            patch(&sequences, &thens(PASS)),
        ),
        (
            "thens of cue on 127 sequences",
            patch(&sequences, &thens(node_kind::CUE)),
        ),
        (
            "pairs of second behind 253",
            patch(&lanes_then_cue, &seconds),
        ),
    ]
}
