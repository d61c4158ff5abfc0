//! Request M-104: the cues and levels come in a slice, counted by Admit and Feed, and
//! the number sent; by hand, over all slices and patches of small types, and over
//! random ones. Every other test that feeds through `common` holds the counts against
//! the bytes, and every run in `properties` against feeding as one.

use second_interpreter::{
    admit, check, empty_slice, every_slice, every_type, feed, join, join_slices, left,
    longest_slice, patch_file, slice_file, type_file, what_slice_leaves, Admitted, FedFiles, Slice,
    Totals, Type,
};

use crate::common::{answered, come_in, fed_and_counted, patch, patch_with, section};
use crate::cuts::cuts;
use crate::exhaustive::every_string;
use crate::generator::{full_type, random_node, random_slice, random_totals, random_type, Random};
use crate::properties::Run;
use crate::refusals::with;

/// An Admit: type, slice; whether it is complete, arrived.
type Admit<'a> = (&'a [u8], &'a [u8], bool, u32);

/// Expects each Admit of a table.
fn expect_admits(table: &[Admit]) {
    for (stream, slice, complete, arrived) in table {
        let expected = Admitted {
            complete: *complete,
            arrived: *arrived,
        };
        let answer = admit(&section(stream), &section(slice));
        assert_eq!(answer, Ok(expected), "type {stream:?}, slice {slice:?}");
        assert_eq!(come_in(&section(slice)), *arrived);
    }
}

#[test]
fn kinds_that_count() {
    expect_admits(&[
        (&[0], &[0], true, 0),
        (&[1], &[1], false, 0),
        (&[1], &[2], true, 1),
        (&[2], &[3], false, 0),
        (&[2], &[4, 1, 7], true, 1),
        // A level 0 has come as much as any other.
        (&[2], &[4, 0, 0], true, 1),
        (&[4, 0, 0], &[7, 0, 0], true, 0),
        (&[4, 1, 2], &[7, 1, 3], false, 0),
        // Counted whether or not the slice is complete.
        (&[4, 1, 2], &[7, 2, 3], false, 1),
        (&[4, 1, 2], &[7, 1, 4, 9, 9], false, 1),
        // One number for both lanes, cues and levels together.
        (&[4, 1, 2], &[7, 2, 4, 9, 9], true, 2),
        (&[4, 4, 1, 1, 4, 2, 2], &[7, 7, 2, 2, 7, 3, 3], false, 2),
    ]);
}

#[test]
fn crossings_and_choices() {
    let rows: &[u8] = &[3, 3, 1, 2, 1];
    expect_admits(&[
        // A crossing is neither cue nor level; what is before it counts.
        (&[3, 1, 1], &[5, 1], false, 0),
        (&[3, 1, 1], &[5, 2], false, 1),
        (&[3, 1, 1], &[6, 2, 1], false, 1),
        (&[3, 1, 1], &[6, 2, 2], true, 2),
        (&[3, 0, 1], &[6, 0, 1], false, 0),
        (&[3, 0, 0], &[5, 0], false, 0),
        (&[3, 0, 0], &[6, 0, 0], true, 0),
        (rows, &[5, 5, 2], false, 1),
        (rows, &[5, 6, 2, 3], false, 1),
        (rows, &[6, 6, 2, 4, 0, 0, 1], false, 2),
        (rows, &[6, 6, 2, 4, 0, 0, 2], true, 3),
        // Nor is a choice.
        (&[5, 1, 2], &[8], false, 0),
        (&[5, 1, 2], &[9, 1], false, 0),
        (&[5, 1, 2], &[9, 2], true, 1),
        (&[5, 1, 2], &[10, 3], false, 0),
        (&[5, 1, 2], &[10, 4, 0, 0], true, 1),
        (&[5, 0, 0], &[9, 0], true, 0),
        (&[5, 0, 0], &[10, 0], true, 0),
        (&[5, 5, 1, 2, 0], &[9, 8], false, 0),
        (&[5, 5, 1, 2, 0], &[9, 10, 4, 0, 0], true, 1),
        (&[5, 4, 1, 1, 2], &[9, 7, 2, 2], true, 2),
        (&[3, 5, 1, 2, 1], &[6, 9, 2, 2], true, 2),
    ]);
}

#[test]
fn values_that_look_like_kinds() {
    expect_admits(&[
        (&[2], &[4, 2, 2], true, 1),
        (&[2], &[4, 4, 4], true, 1),
        (&[2], &[4, 2, 4], true, 1),
        (&[2], &[4, 4, 2], true, 1),
        (&[4, 2, 1], &[7, 3, 2], false, 1),
        (&[4, 2, 1], &[7, 4, 2, 2, 1], false, 1),
        (&[4, 2, 1], &[7, 4, 4, 2, 2], true, 2),
        (&[4, 2, 2], &[7, 4, 4, 0, 3], false, 1),
        (&[4, 2, 2], &[7, 3, 4, 2, 2], false, 1),
        (&[4, 2, 2], &[7, 4, 0, 4, 4, 2, 4], true, 2),
        (&[3, 2, 2], &[5, 4, 4, 2], false, 1),
        (&[3, 2, 2], &[6, 4, 2, 4, 3], false, 1),
        (&[3, 2, 2], &[6, 4, 4, 4, 4, 2, 2], true, 2),
        (&[5, 2, 1], &[9, 4, 4, 4], true, 1),
    ]);
}

/// A feed: type, nodes, slice; what is sent, arrived, sent.
type Feed<'a> = (&'a [u8], &'a [u8], &'a [u8], &'a [u8], u32, u32);

/// Expects each feed of a table.
fn expect_feeds(table: &[Feed]) {
    for (stream, nodes, slice, output, arrived, sent) in table {
        let given = fed_and_counted(&patch(stream, nodes), &section(slice));
        let given = given.map(|given| (given.output, given.arrived, given.sent));
        assert_eq!(
            given,
            Ok((section(output), *arrived, *sent)),
            "type {stream:?}, nodes {nodes:?}, slice {slice:?}"
        );
    }
}

/// Kinds without nodes of their own.
const ALONE: [Feed; 28] = [
    (&[1], &[0], &[2], &[2], 1, 1),
    (&[2], &[0], &[4, 2, 4], &[4, 2, 4], 1, 1),
    // What is not sent on has arrived all the same.
    (&[1], &[1, 0], &[2], &[0], 1, 0),
    (&[4, 1, 2], &[1, 0], &[7, 2, 4, 0, 0], &[0], 2, 0),
    // A cue or level of the node's own is sent without having arrived.
    (&[0], &[2], &[0], &[2], 0, 1),
    (&[3, 0, 1], &[2], &[6, 0, 1], &[2], 0, 1),
    (&[5, 1, 2], &[2], &[10, 3], &[2], 0, 1),
    (&[4, 1, 2], &[2], &[7, 2, 4, 0, 0], &[2], 2, 1),
    (&[0], &[3, 2, 4], &[0], &[4, 2, 4], 0, 1),
    (&[1], &[3, 2, 4], &[2], &[4, 2, 4], 1, 1),
    // One that waits sends what has not come.
    (&[1], &[2], &[1], &[1], 0, 0),
    (&[2], &[3, 2, 4], &[3], &[3], 0, 0),
    (&[4, 1, 2], &[5], &[7, 2, 4, 0, 0], &[2], 2, 1),
    (&[4, 1, 2], &[5], &[7, 1, 4, 0, 0], &[1], 1, 0),
    (&[4, 1, 2], &[6], &[7, 2, 3], &[3], 1, 0),
    (&[3, 1, 2], &[7], &[6, 2, 4, 0, 0], &[2], 2, 1),
    (&[3, 1, 2], &[8], &[5, 2], &[3], 1, 0),
    (&[3, 1, 2], &[8], &[6, 2, 4, 0, 0], &[4, 0, 0], 2, 1),
    (&[3, 3, 1, 1, 1], &[11], &[5, 6, 2, 1], &[6, 2, 5, 1], 1, 1),
    (&[3, 1, 3, 1, 1], &[12], &[6, 2, 5, 2], &[5, 6, 2, 2], 2, 2),
    // Spread sends its first part twice, the sides once each.
    (&[3, 1, 4, 1, 1], &[13], &[5, 2], &[7, 5, 2, 5, 2], 1, 2),
    (
        &[3, 1, 4, 1, 1],
        &[13],
        &[6, 2, 7, 2, 1],
        &[7, 6, 2, 2, 6, 2, 1],
        2,
        3,
    ),
    (
        &[3, 2, 4, 1, 2],
        &[13],
        &[5, 4, 2, 4],
        &[7, 5, 4, 2, 4, 5, 4, 2, 4],
        1,
        2,
    ),
    (&[1], &[14], &[1], &[6, 0, 1], 0, 0),
    (&[1], &[14], &[2], &[6, 0, 2], 1, 1),
    (&[1], &[16, 2], &[1], &[9, 1], 0, 0),
    (&[1], &[16, 2], &[2], &[9, 2], 1, 1),
    (&[2], &[17, 1], &[4, 0, 0], &[10, 4, 0, 0], 1, 1),
];

/// Kinds with two nodes.
const WITH_NODES: [Feed; 21] = [
    // Arrived once, sent by both.
    (&[1], &[4, 0, 0], &[2], &[7, 2, 2], 1, 2),
    (&[1], &[4, 0, 4, 0, 0], &[2], &[7, 2, 7, 2, 2], 1, 3),
    (&[1], &[4, 0, 0], &[1], &[7, 1, 1], 0, 0),
    (&[1], &[4, 0, 1, 0], &[2], &[7, 2, 0], 1, 1),
    (&[1], &[4, 0, 2], &[2], &[7, 2, 2], 1, 2),
    (&[0], &[4, 2, 3, 2, 4], &[0], &[7, 2, 4, 2, 4], 0, 2),
    (&[4, 1, 2], &[4, 6, 5], &[7, 2, 3], &[7, 3, 2], 1, 1),
    (&[3, 1, 1], &[9, 0, 0], &[6, 2, 2], &[6, 2, 2], 2, 2),
    (&[3, 1, 1], &[9, 1, 0, 0], &[6, 2, 2], &[6, 0, 2], 2, 1),
    (&[3, 1, 1], &[9, 2, 2], &[6, 2, 1], &[6, 2, 1], 1, 1),
    (&[3, 0, 1], &[9, 2, 0], &[5, 0], &[5, 2], 0, 1),
    // What goes from one node of a chain to the next is not yet sent.
    (&[1], &[10, 0, 0], &[2], &[2], 1, 1),
    (&[0], &[10, 2, 1, 0], &[0], &[0], 0, 0),
    (&[1], &[10, 4, 0, 0, 5], &[2], &[2], 1, 1),
    (&[1], &[10, 2, 3, 2, 4], &[2], &[4, 2, 4], 1, 1),
    // Prepend: its own cue, and the one that comes.
    (&[1], &[10, 14, 9, 2, 0], &[1], &[6, 2, 1], 0, 1),
    (&[1], &[10, 14, 9, 2, 0], &[2], &[6, 2, 2], 1, 2),
    (&[5, 1, 1], &[15, 0, 2], &[8], &[1], 0, 0),
    (&[5, 1, 1], &[15, 0, 2], &[9, 2], &[2], 1, 1),
    (&[5, 1, 1], &[15, 0, 2], &[10, 1], &[1], 0, 0),
    (&[5, 0, 1], &[15, 2, 0], &[9, 0], &[2], 0, 1),
];

#[test]
fn every_kind_of_node() {
    expect_feeds(&ALONE);
    expect_feeds(&WITH_NODES);
    for kind in 0..=17 {
        let mut both = ALONE.iter().chain(&WITH_NODES);
        assert!(both.any(|(_, nodes, ..)| nodes[0] == kind), "{kind}");
    }
}

/// A feed of a run: slice; arrived, sent.
type Step<'a> = (&'a [u8], u32, u32);

/// Expects the counts of each feed of a run, and their sums of the slices joined.
fn expect_run(stream: &[u8], nodes: &[u8], steps: &[Step], whole: &[u8]) {
    let start = patch(stream, nodes);
    let mut file = start.clone();
    let mut sums = (0, 0);
    for (slice, arrived, sent) in steps {
        let given = fed_and_counted(&file, &section(slice)).expect("a slice of the type");
        assert_eq!((given.arrived, given.sent), (*arrived, *sent), "{slice:?}");
        sums = (sums.0 + arrived, sums.1 + sent);
        file = given.left;
    }
    let at_once = fed_and_counted(&start, &section(whole)).expect("a slice of the type");
    assert_eq!((at_once.arrived, at_once.sent), sums, "{whole:?}");
    assert_eq!(at_once.left, file, "{whole:?}");
}

#[test]
fn what_came_before_is_not_counted_again() {
    expect_run(
        &[3, 1, 1],
        &[0],
        &[(&[5, 2], 1, 1), (&[6, 0, 1], 0, 0), (&[2], 1, 1)],
        &[6, 2, 2],
    );
    // Second keeps back the first part's cue; it has arrived.
    expect_run(
        &[3, 1, 2],
        &[8],
        &[(&[5, 2], 1, 0), (&[6, 0, 4, 2, 4], 1, 1)],
        &[6, 2, 4, 2, 4],
    );
    expect_run(
        &[3, 1, 4, 1, 1],
        &[13],
        &[
            (&[5, 2], 1, 2),
            (&[6, 0, 7, 2, 1], 1, 1),
            (&[7, 0, 2], 1, 1),
        ],
        &[6, 2, 7, 2, 2],
    );
    expect_run(
        &[5, 4, 1, 2, 0],
        &[0],
        &[
            (&[8], 0, 0),
            (&[9, 7, 1, 4, 2, 2], 1, 1),
            (&[7, 2, 0], 1, 1),
        ],
        &[9, 7, 2, 4, 2, 2],
    );
    expect_run(
        &[1],
        &[10, 14, 9, 2, 0],
        &[(&[1], 0, 1), (&[1], 0, 0), (&[2], 1, 1), (&[0], 0, 0)],
        &[2],
    );
}

#[test]
fn one_that_waits_is_counted_when_it_opens() {
    for opener in [&[2][..], &[3, 2, 4]] {
        expect_run(&[1], opener, &[(&[1], 0, 0), (&[2], 1, 1)], &[2]);
        expect_run(
            &[4, 1, 2],
            opener,
            &[
                (&[7, 1, 3], 0, 0),
                (&[7, 1, 3], 0, 0),
                (&[7, 2, 3], 1, 1),
                (&[7, 0, 4, 0, 0], 1, 0),
                (&[7, 0, 0], 0, 0),
            ],
            &[7, 2, 4, 0, 0],
        );
        // A crossing alone opens it, so it is sent before anything has arrived.
        expect_run(
            &[3, 0, 1],
            opener,
            &[(&[5, 0], 0, 0), (&[6, 0, 1], 0, 1), (&[2], 1, 0)],
            &[6, 0, 2],
        );
        // Of a choice the chosen part is judged, which the mark is no part of.
        let skies = [&[15], opener, opener].concat();
        expect_run(
            &[5, 1, 2],
            &skies,
            &[(&[8], 0, 0), (&[10, 3], 0, 0), (&[4, 2, 2], 1, 1)],
            &[10, 4, 2, 2],
        );
    }
}

#[test]
fn refused_calls_give_the_number_alone() {
    let (sides, doubled) = (section(&[4, 1, 2]), patch(&[4, 1, 2], &[4, 0, 0]));
    // A cue has come before each fault.
    for (slice, number) in [
        (&[7, 2][..], 11),
        (&[7, 2, 4, 2], 11),
        (&[7, 2, 11], 12),
        (&[7, 2, 3, 2], 13),
        (&[7, 2, 2], 14),
    ] {
        let slice = section(slice);
        assert_eq!(admit(&sides, &slice), Err(number), "{slice:?}");
        assert_eq!(fed_and_counted(&doubled, &slice), Err(number), "{slice:?}");
    }
    assert_eq!(admit(&section(&[6]), &section(&[2])), Err(2));
    let refused = fed_and_counted(&patch(&[1], &[5]), &section(&[2]));
    assert_eq!(refused, Err(7));
}

#[test]
fn short_buffers_give_the_number_alone() {
    let (start, slice) = (patch(&[4, 1, 2], &[0]), section(&[7, 2, 4, 0, 0]));
    for (output_length, left_length) in [(6, 18), (7, 17), (0, 0), (7, 18), (9, 19)] {
        let (mut output, mut left) = (vec![7; output_length], vec![9; left_length]);
        let answer = feed(&start, &slice, &mut output, &mut left);
        if output_length < 7 || left_length < 18 {
            assert_eq!(answer, Err(20));
            assert_eq!(
                (output, left),
                (vec![7; output_length], vec![9; left_length])
            );
        } else {
            let expected = FedFiles {
                output: 7,
                patch: 18,
                arrived: 2,
                sent: 2,
            };
            assert_eq!(answer, Ok(expected));
            assert_eq!(output[..7], slice);
            let totals = Totals {
                arrived: 2,
                sent: 2,
            };
            assert_eq!(left[..18], patch_with(&[4, 0, 0], &[0], totals));
        }
    }
}

#[test]
fn refused_feeds_of_a_run_add_nothing() {
    let mut run = Run::of_files(section(&[4, 1, 2]), patch(&[4, 1, 2], &[4, 0, 0]));
    let counts = |run: &Run| {
        run.holds();
        (run.arrived, run.sent)
    };
    assert_eq!(run.feed(&section(&[7, 2, 3]), 8, 9), 20);
    assert_eq!(run.feed(&section(&[7, 2]), 513, 8_492), 11);
    assert_eq!(counts(&run), (0, 0));
    assert_eq!(run.feed(&section(&[7, 2, 3]), 513, 8_492), 0);
    assert_eq!(counts(&run), (1, 2));
    assert_eq!(run.feed(&section(&[7, 2, 4, 0, 0]), 513, 8_492), 14);
    assert_eq!(run.feed(&section(&[7, 0, 4, 2, 2]), 0, 8_492), 20);
    assert_eq!(counts(&run), (1, 2));
    assert_eq!(run.feed(&section(&[7, 0, 4, 2, 2]), 513, 8_492), 0);
    assert_eq!(counts(&run), (2, 4));
}

#[test]
fn a_call_keeps_nothing_of_the_one_before() {
    let (start, slice) = (patch(&[1], &[4, 0, 2]), section(&[2]));
    for _ in 0..3 {
        let given = fed_and_counted(&start, &slice).expect("a slice of the type");
        assert_eq!((given.arrived, given.sent), (1, 2));
        let admitted = admit(&section(&[1]), &slice).expect("a slice of the type");
        assert_eq!(admitted.arrived, 1);
    }
}

#[test]
fn left_and_join_answer_as_before() {
    let stream = section(&[3, 1, 1]);
    let (first, second) = (section(&[5, 2]), section(&[6, 0, 2]));
    assert_eq!(left(&stream, &first, &mut [0; 5]), Ok(5));
    let mut whole = [0; 5];
    assert_eq!(join(&stream, &first, &second, &mut whole), Ok(5));
    let arrived = |stream: &[u8], slice: &[u8]| admit(stream, slice).map(|slice| slice.arrived);
    assert_eq!(arrived(&stream, &first), Ok(1));
    assert_eq!(arrived(&section(&[3, 0, 1]), &second), Ok(1));
    assert_eq!(arrived(&stream, &whole), Ok(2));
}

#[test]
fn the_most_there_can_be() {
    // 128 leaves in a type of 255.
    for (kind, crossed) in [(3, 6), (4, 7)] {
        let stream = with(vec![kind; 127], &[2; 128]);
        let slice = with(vec![crossed; 127], &[4, 4, 2].repeat(128));
        expect_admits(&[(&stream, &slice, true, 128)]);
        expect_feeds(&[(&stream, &[0], &slice, &slice, 128, 128)]);
        expect_feeds(&[(&stream, &[2], &slice, &[2], 128, 1)]);
    }
    // Of 64 that arrive, 128 sent.
    let (stream, slice) = (with(vec![4; 63], &[1; 64]), with(vec![7; 63], &[2; 64]));
    let doubled = [&[7][..], &slice, &slice].concat();
    expect_feeds(&[(&stream, &[4, 0, 0], &slice, &doubled, 64, 128)]);
    // Of none, 32 sent, by as many nodes of a patch of 63.
    let (nodes, sent) = (with(vec![4; 31], &[2; 32]), with(vec![7; 31], &[2; 32]));
    expect_feeds(&[(&[0], &nodes, &[0], &sent, 0, 32)]);
}

/// The number of nodes of a slice.
fn nodes_of(slice: &Slice) -> u32 {
    match slice {
        Slice::Uncrossed(inside) | Slice::FirstChosen(inside) | Slice::SecondChosen(inside) => {
            1 + nodes_of(inside)
        }
        Slice::Crossed(one, other) | Slice::Beside(one, other) => {
            1 + nodes_of(one) + nodes_of(other)
        }
        _ => 1,
    }
}

/// The cues and levels of a type, each of which is still to come.
fn due(stream: &[u8]) -> u32 {
    let due = stream[2..].iter().filter(|kind| [1, 2].contains(*kind));
    due.count() as u32
}

/// Expects of a slice what holds of any: its tree, Admit and its bytes agree, it has at
/// least as many nodes, and what has come is no longer due. Of an either the side not
/// chosen is no longer due either.
fn expect_of_any(stream: &Type, slice: &Slice) {
    let (stream_file, file) = (type_file(stream), slice_file(slice));
    let expected = Admitted {
        complete: slice.is_complete(),
        arrived: come_in(&file),
    };
    assert_eq!(admit(&stream_file, &file), Ok(expected), "{slice:?}");
    assert_eq!(slice.arrivals(), expected.arrived, "{slice:?}");
    assert!(slice.arrivals() <= nodes_of(slice), "{slice:?}");
    let remainder = answered(|buffer| left(&stream_file, &file, buffer)).expect("left");
    let accounted = slice.arrivals() + due(&remainder);
    if stream_file[2..].contains(&5) {
        assert!(accounted <= due(&stream_file), "{stream:?} {slice:?}");
    } else {
        assert_eq!(accounted, due(&stream_file), "{stream:?} {slice:?}");
    }
}

#[test]
fn every_slice_of_every_small_type() {
    let mut seen = [0; 4];
    for stream in [1, 3, 5].into_iter().flat_map(every_type) {
        assert_eq!(empty_slice(&stream).arrivals(), 0, "{stream:?}");
        for slice in every_slice(&stream) {
            expect_of_any(&stream, &slice);
            seen[slice.arrivals() as usize] += 1;
        }
    }
    assert!(seen.iter().all(|count| *count > 500), "{seen:?}");
}

#[test]
fn every_join_of_small_slices_adds() {
    let mut adding = 0;
    for stream in [1, 3, 5].into_iter().flat_map(every_type) {
        for p in every_slice(&stream) {
            let remainder = what_slice_leaves(&stream, &p).expect("a slice of the type");
            for q in every_slice(&remainder) {
                let whole = join_slices(&p, &q).expect("a slice of what is left");
                let sum = p.arrivals() + q.arrivals();
                assert_eq!(whole.arrivals(), sum, "{stream:?} {p:?} {q:?}");
                adding += usize::from(p.arrivals() > 0 && q.arrivals() > 0);
            }
        }
    }
    assert!(adding > 1_000, "{adding}");
}

/// A type of a random size, often a large one.
fn some_type(random: &mut Random) -> Type {
    let nodes = [9, 20, 60, 255][random.below(4)];
    random_type(random, nodes)
}

#[test]
fn random_joins_add() {
    let mut random = Random::new(0x5EED_0013);
    let mut adding = 0;
    for _ in 0..10_000 {
        let stream = some_type(&mut random);
        assert_eq!(empty_slice(&stream).arrivals(), 0, "{stream:?}");
        let stream_file = type_file(&stream);
        let (mut remainder, mut whole) = (stream.clone(), empty_slice(&stream));
        let mut sum = 0;
        for progress in [2, 3, 4, 8] {
            let slice = random_slice(&mut random, &remainder, progress);
            expect_of_any(&remainder, &slice);
            adding += usize::from(sum > 0 && slice.arrivals() > 0);
            sum += slice.arrivals();
            whole = join_slices(&whole, &slice).expect("a slice of what is left");
            remainder = what_slice_leaves(&remainder, &slice).expect("a slice of the type");
            let admitted = admit(&stream_file, &slice_file(&whole));
            assert_eq!(admitted.map(|whole| whole.arrived), Ok(sum), "{stream:?}");
        }
        expect_of_any(&stream, &whole);
    }
    assert!(adding > 5_000, "{adding}");
}

#[test]
fn all_of_a_type_has_come_in_its_longest_slice() {
    let mut random = Random::new(0x5EED_0014);
    for _ in 0..500 {
        let stream = full_type(&mut random, 255, 0);
        let longest = longest_slice(&stream);
        assert_eq!(longest.arrivals(), due(&type_file(&stream)));
        expect_of_any(&stream, &longest);
    }
}

/// The number that a patch sends for a slice; none if the patch is refused.
fn sent_by(stream: &[u8], nodes: &[u8], slice: &[u8]) -> Option<u32> {
    let file = patch(&stream[2..], nodes);
    check(&file, &mut [0; 257]).ok()?;
    let given = fed_and_counted(&file, slice).expect("a slice of the type");
    Some(given.sent)
}

/// Kinds that send on each cue and level once.
const KEEPING: [&[u8]; 9] = [
    &[0],
    &[9, 0, 0],
    &[10, 0, 0],
    &[11],
    &[12],
    &[14],
    &[15, 0, 0],
    &[16, 1],
    &[17, 1],
];

/// How often each law of a kind's count was met.
#[derive(Default)]
struct Laws {
    kept: [usize; KEEPING.len()],
    parted: usize,
    spread: usize,
}

impl Laws {
    /// Expects them of a slice, where the type suits the kind.
    fn expect(&mut self, stream: &Type, slice: &Slice) {
        let (stream_file, file) = (type_file(stream), slice_file(slice));
        let sent = |nodes: &[u8]| sent_by(&stream_file, nodes, &file);
        let arrived = slice.arrivals();
        for (nodes, met) in KEEPING.iter().zip(&mut self.kept) {
            if let Some(sent) = sent(nodes) {
                assert_eq!(sent, arrived, "{stream:?} {slice:?} {nodes:?}");
                *met += 1;
            }
        }
        assert_eq!(sent(&[1, 0]), Some(0));
        assert_eq!(sent(&[4, 0, 0]), Some(2 * arrived));
        // A side or part and the other have all that has arrived.
        for (one, other) in [(5, 6), (7, 8)] {
            if let (Some(one), Some(other)) = (sent(&[one]), sent(&[other])) {
                assert_eq!(one + other, arrived, "{stream:?} {slice:?}");
                self.parted += 1;
            }
        }
        if let Some(sent_by_spread) = sent(&[13]) {
            let first = sent(&[7]).expect("a sequence");
            assert_eq!(sent_by_spread, arrived + first, "{stream:?} {slice:?}");
            self.spread += 1;
        }
    }
}

#[test]
fn what_each_kind_does_to_the_count() {
    let mut laws = Laws::default();
    for stream in [1, 3, 5].into_iter().flat_map(every_type) {
        for slice in every_slice(&stream) {
            laws.expect(&stream, &slice);
        }
    }
    // Least often choose: types 5 0 0, 5 1 1 and 5 2 2 have 3, 5 and 11 slices.
    assert_eq!(laws.kept.iter().min(), Some(&19));
    assert!(laws.parted > 1_000 && laws.spread > 100);
}

/// What the pieces of many cuts counted: how often both pieces did, of what arrived
/// and of what was sent, and how often more was sent than arrived, or less.
#[derive(Debug, Default)]
struct Counted {
    arrived: usize,
    sent: usize,
    more: usize,
    less: usize,
}

impl Counted {
    /// Feeds a slice at once and in every two pieces, and expects the sums.
    fn expect_every_cut(&mut self, start: &[u8], whole: &Slice) {
        let at_once = fed_and_counted(start, &slice_file(whole)).expect("a slice of the type");
        for (p, q) in cuts(whole) {
            let first = fed_and_counted(start, &slice_file(&p)).expect("a slice of the type");
            let second =
                fed_and_counted(&first.left, &slice_file(&q)).expect("a slice of the rest");
            assert_eq!(first.arrived + second.arrived, at_once.arrived);
            assert_eq!(first.sent + second.sent, at_once.sent);
            assert_eq!(second.left, at_once.left);
            self.arrived += usize::from(first.arrived > 0 && second.arrived > 0);
            self.sent += usize::from(first.sent > 0 && second.sent > 0);
        }
        self.more += usize::from(at_once.sent > at_once.arrived);
        self.less += usize::from(at_once.sent < at_once.arrived);
    }

    /// Expects that each was met so often.
    fn expect_at_least(&self, times: usize) {
        let met = [self.arrived, self.sent, self.more, self.less];
        assert!(met.iter().all(|count| *count >= times), "{self:?}");
    }
}

#[test]
fn every_small_patch_in_two_pieces() {
    let mut counted = Counted::default();
    for stream in [1, 3].into_iter().flat_map(every_type) {
        let slices = every_slice(&stream);
        for length in 1..=3 {
            every_string(length, 18, |nodes| {
                let start = patch(&type_file(&stream)[2..], nodes);
                if check(&start, &mut [0; 257]).is_ok() {
                    for whole in &slices {
                        counted.expect_every_cut(&start, whole);
                    }
                }
            });
        }
    }
    counted.expect_at_least(500);
}

#[test]
fn random_patches_in_two_pieces() {
    let mut random = Random::new(0x5EED_0015);
    let mut counted = Counted::default();
    for _ in 0..3_000 {
        let input = random_type(&mut random, 11);
        let node = random_node(&mut random, &input, 11);
        let start = patch_file(&input, &node, random_totals(&mut random));
        for progress in [3, 6, 8] {
            let whole = random_slice(&mut random, &input, progress);
            counted.expect_every_cut(&start, &whole);
        }
    }
    counted.expect_at_least(500);
}

#[test]
fn feed_counts_as_admit_does() {
    let mut random = Random::new(0x5EED_0016);
    for _ in 0..5_000 {
        let input = some_type(&mut random);
        let node = random_node(&mut random, &input, 30);
        let start = patch_file(&input, &node, random_totals(&mut random));
        let output = answered(|buffer| check(&start, buffer)).expect("accepted");
        let slice = slice_file(&random_slice(&mut random, &input, 5));
        let given = fed_and_counted(&start, &slice).expect("a slice of the type");
        let of_slice = admit(&type_file(&input), &slice).expect("a slice of the type");
        let of_output = admit(&output, &given.output).expect("a slice of the output type");
        assert_eq!(given.arrived, of_slice.arrived);
        assert_eq!(given.sent, of_output.arrived);
        assert!(given.sent <= due(&output));
    }
}
