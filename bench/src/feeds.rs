//! The rows of Feed: a patch, and a slice of its input type of which this share has come.

use comparison::formats::files::{contents, patch, section};
use comparison::formats::kinds::node_kind::{
    self, BOTH, CHAIN, FIRST, FRONT, LEFT, PASS, REGROUP_LEFT, REGROUP_RIGHT, RIGHT, SECOND,
    SPREAD, THEN,
};
use comparison::formats::kinds::slice_kind;
use comparison::formats::kinds::type_kind::{BESIDE, CUE, EMPTY, LEVEL, SEQUENCE};
use comparison::Operation;

use crate::nodes::{
    chains, choices_then_cue, choose_of_marks, choosing, cue_then_lanes, lanes, largest, marking,
    nodes_of, seeking, silent_largest, tree_of, MOST_NODES,
};
use crate::patches::{growing_chooses, growing_patches, pass_on_growing_types, OF_PASS};
use crate::rows::{claiming, grown, lengthened, Group, Row, LARGEST};
use crate::streams::{slice_tree, type_tree, Shape, Share};

/// A name, a patch, and how much of its input comes.
type Fed = (String, Vec<u8>, Share);

fn fed(name: &str, patch: Vec<u8>, share: Share) -> Fed {
    (name.to_string(), patch, share)
}

fn row(group: Group, (name, patch, share): Fed) -> Row {
    let slice = section(&slice_tree(contents(&patch), share));
    Row {
        group,
        name,
        operation: Operation::Feed,
        files: vec![patch, slice],
    }
}

/// Small, typical and largest calls.
pub fn legal() -> Vec<Row> {
    let mut rows = small();
    rows.extend(Shape::ALL.into_iter().flat_map(largest_of));
    rows.extend(deep_chains());
    rows.extend(changing());
    rows.extend(waiting());
    rows.extend(opening());
    rows.extend(crossing());
    rows.extend(choosing_between());
    rows.into_iter().map(|fed| row(Group::Legal, fed)).collect()
}

fn small() -> Vec<Fed> {
    // Nothing comes, and the cue sends: its part, which front puts there, is complete.
    let prepend = [CHAIN, FRONT, THEN, node_kind::CUE, PASS];
    let typical = [
        CHAIN, SPREAD, BOTH, CHAIN, LEFT, SECOND, CHAIN, RIGHT, SECOND,
    ];
    let balanced = type_tree(Shape::Balanced, 31);
    let swap = [BOTH, RIGHT, LEFT];
    vec![
        fed("small, pass", patch(&[CUE], &[PASS]), Share::All),
        fed("small, prepend", patch(&[CUE], &prepend), Share::Nothing),
        fed(
            "small, swap",
            patch(&[BESIDE, CUE, LEVEL], &swap),
            Share::Half,
        ),
        fed("typical, 9 nodes", patch(&balanced, &typical), Share::Half),
    ]
}

/// The largest patches of one shape. Where all has come, every sequence is crossed.
fn largest_of((shape, name): (Shape, &str)) -> Vec<Fed> {
    let shares = [
        ("nothing", Share::Nothing),
        ("half", Share::Half),
        ("all", Share::All),
    ];
    let mut rows = Vec::new();
    for (kind, file) in largest(shape).into_iter().chain(choosing(shape)) {
        for (come, share) in shares {
            let name = format!("63, {kind}, {name}, {come}");
            rows.push(fed(&name, file.clone(), share));
        }
    }
    rows.push(fed(
        &format!("59, marks and chooses, {name}, all"),
        marking(shape),
        Share::All,
    ));
    rows
}

/// Chains of pass: on the least there is, and on the longest slice.
fn deep_chains() -> Vec<Fed> {
    let levels = lanes(LARGEST, LEVEL);
    let mut rows = Vec::new();
    for (shape, name) in [
        (Shape::DeepLeft, "deep left"),
        (Shape::DeepRight, "deep right"),
    ] {
        let nodes = nodes_of(shape, CHAIN, &[PASS]);
        let cue = format!("63, chains on a cue, {name}");
        let longest = format!("63, chains on 128 levels, {name}");
        rows.push(fed(&cue, patch(&[CUE], &nodes), Share::All));
        rows.push(fed(&longest, patch(&levels, &nodes), Share::All));
    }
    rows
}

/// The largest patches along which one stream is changed again and again. Of the thens of cue:
/// where nothing comes, only the innermost first node is fed, and it waits; where all comes, each
/// sends.
fn changing() -> Vec<Fed> {
    let mut rows = Vec::new();
    for (name, file) in chains().into_iter().chain(seeking()) {
        let waits = format!("63, {name}, nothing");
        let comes = format!("63, {name}, all");
        rows.push(fed(&waits, file.clone(), Share::Nothing));
        rows.push(fed(&comes, file, Share::All));
    }
    let regroups = tree_of(Shape::DeepLeft, MOST_NODES, CHAIN, &|place| {
        vec![[REGROUP_RIGHT, REGROUP_LEFT][place % 2]]
    });
    let three_parts = tree_of(Shape::DeepLeft, 5, SEQUENCE, &|place| {
        lanes([81, 83, 85][place], LEVEL)
    });
    rows.push(fed(
        "63, regroups of levels, deep left",
        patch(&three_parts, &regroups),
        Share::All,
    ));
    let swaps = tree_of(Shape::DeepLeft, 31, CHAIN, &|_| vec![BOTH, RIGHT, LEFT]);
    let levels = lanes(LARGEST, LEVEL);
    rows.push(fed(
        "63, swaps, deep left",
        patch(&levels, &swaps),
        Share::All,
    ));
    rows
}

/// Second, which waits for a large stream and sends its empty slice: alone, and below chains.
fn waiting() -> Vec<Fed> {
    let mut rows = Vec::new();
    for (shape, name) in [
        (Shape::DeepLeft, "nested left"),
        (Shape::DeepRight, "nested right"),
    ] {
        for (kind, fork) in [("lanes", BESIDE), ("sequences", SEQUENCE)] {
            let awaited = tree_of(shape, LARGEST - 2, fork, &|_| vec![CUE]);
            let tree = [&[SEQUENCE, CUE], awaited.as_slice()].concat();
            let chained = below_chains(Shape::DeepLeft, SECOND);
            let alone = format!("second on 253, {kind} {name}");
            let below = format!("63, second on 253, {kind} {name}");
            rows.push(fed(&alone, patch(&tree, &[SECOND]), Share::Nothing));
            rows.push(fed(&below, patch(&tree, &chained), Share::Nothing));
        }
    }
    rows
}

/// Cues and levels that look at a long slice to its end: they wait on the longest empty one, send
/// for its last byte, or send because nothing in it is awaited.
fn opening() -> Vec<Fed> {
    let cues = lanes(LARGEST, CUE);
    let slices = [
        ("nothing", &cues, Share::Nothing),
        ("the last", &cues, Share::Last),
        ("none awaited", &lanes(LARGEST, EMPTY), Share::Nothing),
    ];
    let nodes = [
        ("cue", vec![node_kind::CUE]),
        ("level", vec![node_kind::LEVEL, 1, 44]),
    ];
    let mut rows = Vec::new();
    for (kind, node) in nodes {
        let pairs = nodes_of(Shape::Balanced, BOTH, &node);
        for (come, tree, share) in slices {
            let alone = format!("{kind} on 255, {come}");
            let below = format!("63, pairs of {kind} on 255, {come}");
            rows.push(fed(&alone, patch(tree, &node), share));
            rows.push(fed(&below, patch(tree, &pairs), share));
        }
    }
    rows
}

/// The largest patch of chains, in which this node comes first and then pass.
fn below_chains(shape: Shape, first: u8) -> Vec<u8> {
    tree_of(shape, MOST_NODES, CHAIN, &|place| {
        vec![if place == 0 { first } else { PASS }]
    })
}

/// Spread before and after a crossing, first when it is crossed, and pairs, all of 255 nodes.
fn crossing() -> Vec<Fed> {
    let spread = patch(&cue_then_lanes(LARGEST - 2), &[SPREAD]);
    let first = [&[SEQUENCE], lanes(LARGEST - 2, LEVEL).as_slice(), &[CUE]].concat();
    let chained = below_chains(Shape::DeepRight, FIRST);
    let levels = lanes(127, LEVEL);
    vec![
        fed("spread, gives 255, nothing", spread.clone(), Share::Nothing),
        fed("spread, gives 255, all", spread, Share::All),
        fed("first of 253, all", patch(&first, &[FIRST]), Share::All),
        fed("63, first of 253, all", patch(&first, &chained), Share::All),
        fed(
            "both, gives 255, all",
            patch(&levels, &[BOTH, PASS, PASS]),
            Share::All,
        ),
    ]
}

/// Choices of the largest streams, and a first part of choices that is crossed.
fn choosing_between() -> Vec<Fed> {
    let (halves, marks) = choose_of_marks();
    let choices = choices_then_cue();
    let chained = nodes_of(Shape::DeepLeft, CHAIN, &[PASS]);
    let first_chained = below_chains(Shape::DeepRight, FIRST);
    let mut rows = Vec::new();
    for (come, share) in [("nothing", Share::Nothing), ("all", Share::All)] {
        let mut add = |name, tree: &[u8], nodes: &[u8]| {
            rows.push(fed(&format!("{name}, {come}"), patch(tree, nodes), share));
        };
        add("choose of marks, gives 255", &halves, &marks);
        add("first of 63 choices", &choices, &[FIRST]);
        add("63, first of 63 choices", &choices, &first_chained);
        add("63, chains on 63 choices", &choices, &chained);
    }
    rows
}

/// A cue on lanes of a growing number: where nothing comes, and where the last does.
fn growing_openings() -> Vec<Row> {
    let of_lanes = |series, share| {
        let types = grown(&[(series, |nodes| lanes(nodes, CUE))]).into_iter();
        types.map(move |(group, name, tree)| {
            row(group, (name, patch(&tree, &[node_kind::CUE]), share))
        })
    };
    of_lanes("cue on lanes, nothing", Share::Nothing)
        .chain(of_lanes("cue on lanes, the last", Share::Last))
        .collect()
}

/// One node on types of a growing size, and patches of a growing number of nodes.
pub fn growing() -> Vec<Row> {
    let on_types = pass_on_growing_types().into_iter();
    let patches = (growing_patches(OF_PASS, &[PASS]).into_iter()).chain(growing_chooses());
    on_types
        .map(|(group, name, file)| row(group, (name, file, Share::Half)))
        .chain(patches.map(|(group, name, file)| row(group, (name, file, Share::All))))
        .chain(growing_openings())
        .collect()
}

/// Refused calls: with long files, and with a fault at the very end of the largest files.
pub fn refused() -> Vec<Row> {
    let levels = lanes(LARGEST, LEVEL);
    let nodes = nodes_of(Shape::DeepLeft, CHAIN, &silent_largest());
    let file = patch(&levels, &nodes);
    let slice = section(&slice_tree(&levels, Share::All));
    let long_patch = lengthened(&file, 1 << 20);
    let long_slice = lengthened(&slice, 1 << 20);
    let claims = claiming(lengthened(&slice, 65_537));
    let chains = patch(&levels, &[CHAIN; 65_535]);
    let cut = section(&slice[2..slice.len() - 1]);
    let mut misplaced = slice.clone();
    let last = misplaced.len() - 3;
    misplaced[last] = slice_kind::CUE_COME;
    let misshapen = patch(&levels, &wrong_shape_at_the_end());
    vec![
        refusal("patch file of a mebibyte", &long_patch, &slice),
        refusal("slice file of a mebibyte", &file, &long_slice),
        refusal("slice claims 65,535 bytes, full", &file, &claims),
        refusal("65,535 chains", &chains, &slice),
        refusal("slice cut at its last byte", &file, &cut),
        refusal("misplaced kind at the end of the slice", &file, &misplaced),
        refusal("wrong shape in the last node", &misshapen, &slice),
    ]
}

fn refusal(name: &str, patch: &[u8], slice: &[u8]) -> Row {
    Row {
        group: Group::Refused,
        name: name.to_string(),
        operation: Operation::Feed,
        files: vec![patch.to_vec(), slice.to_vec()],
    }
}

fn wrong_shape_at_the_end() -> Vec<u8> {
    let last = MOST_NODES / 2;
    tree_of(Shape::DeepLeft, MOST_NODES, CHAIN, &|place| {
        vec![if place == last { FIRST } else { PASS }]
    })
}
