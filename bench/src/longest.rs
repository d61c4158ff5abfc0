//! The rows of Longest: a type alone.

use comparison::formats::files::section;
use comparison::formats::kinds::type_kind::{BESIDE, CUE, EITHER, LEVEL, SEQUENCE};
use comparison::Operation;

use crate::nodes::{choices, choices_then_cue, eithers, lanes, tree_of};
use crate::rows::{grown, refused_types, Group, Growth, Row, LARGEST};
use crate::streams::{type_tree, Shape};

/// The types that are followed as they grow. Where choices are one inside another, whoever measures
/// the sides again at each of them takes longer and longer.
const GROWTHS: [Growth; 14] = [
    ("sequences, deep left", |nodes| {
        forks_of(Shape::DeepLeft, nodes, SEQUENCE)
    }),
    ("sequences, deep right", |nodes| {
        forks_of(Shape::DeepRight, nodes, SEQUENCE)
    }),
    ("sequences, balanced", |nodes| {
        forks_of(Shape::Balanced, nodes, SEQUENCE)
    }),
    ("sides, deep left", |nodes| {
        forks_of(Shape::DeepLeft, nodes, BESIDE)
    }),
    ("sides, deep right", |nodes| {
        forks_of(Shape::DeepRight, nodes, BESIDE)
    }),
    ("sides, balanced", |nodes| {
        forks_of(Shape::Balanced, nodes, BESIDE)
    }),
    ("levels", |nodes| lanes(nodes, LEVEL)),
    ("eithers, deep left, first longer", |nodes| {
        eithers(Shape::DeepLeft, nodes)
    }),
    ("eithers, deep right, second longer", |nodes| {
        eithers(Shape::DeepRight, nodes)
    }),
    ("eithers, deep left, second longer", |nodes| {
        nest(Shape::DeepLeft, nodes, 2)
    }),
    ("eithers, deep right, first longer", |nodes| {
        nest(Shape::DeepRight, nodes, 2)
    }),
    ("eithers, deep left, ties", |nodes| {
        nest(Shape::DeepLeft, nodes, 0)
    }),
    ("eithers, deep right, ties", |nodes| {
        nest(Shape::DeepRight, nodes, 0)
    }),
    ("eithers, balanced, ties", |nodes| {
        forks_of(Shape::Balanced, nodes, EITHER)
    }),
];

/// Forks of one kind above cues: a type of so many nodes.
fn forks_of(shape: Shape, nodes: usize, fork: u8) -> Vec<u8> {
    tree_of(shape, nodes, fork, &|_| vec![CUE])
}

/// Choices one inside another, a type of so many nodes. At every second one the longest slice of
/// the side that ends there has so many bytes more than that of the side that goes on; an even
/// number.
fn nest(shape: Shape, nodes: usize, more: usize) -> Vec<u8> {
    let choice = |going_on: &[u8], ending: &[u8]| match shape {
        Shape::DeepLeft => [&[EITHER], going_on, ending].concat(),
        _ => [&[EITHER], ending, going_on].concat(),
    };
    let (mut tree, mut bytes) = (vec![CUE], 1);
    loop {
        // Lanes have an odd length. With one choice more the nest has one again.
        let ending = lanes_of_length(bytes + more);
        let larger = choice(&choice(&tree, &ending), &[CUE]);
        if larger.len() > nodes {
            break;
        }
        tree = larger;
        bytes += more + 2;
    }
    while tree.len() < nodes {
        tree = choice(&tree, &[CUE]);
    }
    tree
}

/// Lanes of levels, and of a cue where a level would be too long, whose longest slice has so many
/// bytes, an odd number: a level has three, the fork beside it one.
fn lanes_of_length(bytes: usize) -> Vec<u8> {
    let last = bytes / 4;
    tree_of(Shape::DeepRight, 2 * last + 1, BESIDE, &|place| {
        let is_short = place == last && bytes % 4 == 1;
        vec![if is_short { CUE } else { LEVEL }]
    })
}

fn row(group: Group, name: &str, type_file: Vec<u8>) -> Row {
    Row::new(group, name, Operation::Longest, &[type_file])
}

/// Small, typical and largest calls.
pub fn legal() -> Vec<Row> {
    let mut trees = vec![
        ("small, one node".to_string(), vec![CUE]),
        ("small, three nodes".to_string(), vec![SEQUENCE, CUE, CUE]),
        ("small, a choice".to_string(), vec![EITHER, CUE, LEVEL]),
        ("typical".to_string(), type_tree(Shape::Balanced, 31)),
    ];
    let largest = GROWTHS.map(|(name, tree)| (name, tree(LARGEST)));
    let choosing = [
        ("64 choices", choices(64)),
        ("63 choices, then a cue", choices_then_cue()),
    ];
    for (name, tree) in largest.into_iter().chain(choosing) {
        trees.push((format!("largest, {name}"), tree));
    }
    (trees.into_iter())
        .map(|(name, tree)| row(Group::Legal, &name, section(&tree)))
        .collect()
}

/// Types of a growing size.
pub fn growing() -> Vec<Row> {
    (grown(&GROWTHS).into_iter())
        .map(|(group, name, tree)| row(group, &name, section(&tree)))
        .collect()
}

/// Refused calls with long files.
pub fn refused() -> Vec<Row> {
    let legal = section(&type_tree(Shape::Balanced, LARGEST));
    (refused_types(&legal).into_iter())
        .map(|(name, file)| row(Group::Refused, name, file))
        .collect()
}
