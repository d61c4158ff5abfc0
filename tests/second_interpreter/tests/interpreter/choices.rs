//! Request M-100: either, choices, choose and the two marks, as bytes.

use second_interpreter::{check, join, Number};

use crate::common::{answered, fed, is_complete, patch, section, TOTALS_SECTION};
use crate::kinds::{expect_feeds, expect_joins, Join};
use crate::refusals::{nodes_number, patch_number, slice_number, type_number, with};

/// The section of the type that a patch gives, or its number.
fn given(stream: &[u8], nodes: &[u8]) -> Result<Vec<u8>, Number> {
    let file = answered(|buffer| check(&patch(stream, nodes), buffer))?;
    Ok(file[2..].to_vec())
}

/// A type of so many sequences in a row, and their cues.
fn row(pairs: usize) -> Vec<u8> {
    with([3, 1].repeat(pairs), &[1])
}

#[test]
fn choose() {
    let stream: &[u8] = &[5, 1, 2];
    let lamps: &[u8] = &[5, 3, 4, 1, 2, 0, 3, 4, 1, 2, 0];
    expect_feeds(&[
        // None chosen: neither part is fed, so no cue is sent, even one that would
        // not wait, the empty slice of its part being complete.
        (stream, &[15, 2, 2], &[8], &[1], stream, &[15, 2, 2]),
        (&[5, 0, 1], &[15, 2, 0], &[8], &[1], &[5, 0, 1], &[15, 2, 0]),
        (&[5, 0, 1], &[15, 2, 0], &[9, 0], &[2], &[0], &[1, 0]),
        (lamps, &[15, 0, 0], &[8], &[5, 7, 1, 3], lamps, &[15, 0, 0]),
        // A choice: the chosen node's remainder alone. A cue there waits while its
        // part brings nothing.
        (stream, &[15, 2, 2], &[9, 1], &[1], &[1], &[2]),
        (stream, &[15, 2, 2], &[9, 2], &[2], &[0], &[1, 0]),
        (stream, &[15, 2, 2], &[10, 3], &[1], &[2], &[2]),
        (stream, &[15, 2, 2], &[10, 4, 0, 7], &[2], &[0], &[1, 0]),
        (&[5, 1, 1], &[15, 0, 2], &[9, 1], &[1], &[1], &[0]),
        (&[5, 1, 1], &[15, 0, 2], &[10, 1], &[1], &[1], &[2]),
        (&[5, 1, 1], &[15, 0, 2], &[10, 2], &[2], &[0], &[1, 0]),
        (&[5, 1, 1], &[15, 2, 0], &[10, 2], &[2], &[0], &[0]),
    ]);
    assert_eq!(given(stream, &[15, 2, 2]), Ok(vec![1]));
    assert_eq!(given(lamps, &[15, 0, 0]), Ok(vec![3, 4, 1, 2, 0]));
}

#[test]
fn choose_in_choose() {
    let stream: &[u8] = &[5, 5, 1, 2, 5, 1, 2];
    let nodes: &[u8] = &[15, 15, 2, 2, 15, 0, 2];
    assert_eq!(nodes_number(&[5, 5, 1, 2, 5, 2, 1], nodes), 30);
    expect_feeds(&[
        (stream, &[15, 0, 0], &[8], &[8], stream, &[15, 0, 0]),
        (stream, &[15, 0, 0], &[9, 8], &[8], &[5, 1, 2], &[0]),
        (stream, &[15, 0, 0], &[10, 9, 2], &[9, 2], &[0], &[0]),
        (stream, nodes, &[8], &[1], stream, nodes),
        (stream, nodes, &[9, 8], &[1], &[5, 1, 2], &[15, 2, 2]),
        (stream, nodes, &[10, 8], &[1], &[5, 1, 2], &[15, 0, 2]),
        (stream, nodes, &[10, 9, 1], &[1], &[1], &[0]),
        (stream, nodes, &[10, 10, 3], &[1], &[2], &[2]),
        (stream, nodes, &[10, 10, 4, 0, 0], &[2], &[0], &[1, 0]),
    ]);
}

#[test]
fn marks() {
    expect_feeds(&[
        // At the first feed, even one that brings nothing.
        (&[1], &[16, 2], &[1], &[9, 1], &[1], &[0]),
        (&[1], &[16, 2], &[2], &[9, 2], &[0], &[0]),
        (&[1], &[17, 2], &[1], &[10, 1], &[1], &[0]),
        (&[1], &[17, 2], &[2], &[10, 2], &[0], &[0]),
        (&[0], &[16, 0], &[0], &[9, 0], &[0], &[0]),
        (&[1], &[17, 3, 1, 5, 0, 2], &[2], &[10, 2], &[0], &[0]),
        // A choice that has not come may be marked as well.
        (&[5, 1, 2], &[16, 0], &[8], &[9, 8], &[5, 1, 2], &[0]),
        (&[5, 1, 2], &[17, 0], &[9, 1], &[10, 9, 1], &[1], &[0]),
    ]);
    assert_eq!(given(&[1], &[16, 2]), Ok(vec![5, 1, 2]));
    assert_eq!(given(&[1], &[17, 2]), Ok(vec![5, 2, 1]));
    // Any type is carried, nullable or not.
    assert_eq!(given(&[1], &[16, 3, 0, 0]), Ok(vec![5, 1, 3, 0, 0]));
    assert_eq!(given(&[1], &[17, 4, 0, 0]), Ok(vec![5, 4, 0, 0, 1]));
    assert_eq!(given(&[1], &[16, 5, 1, 2]), Ok(vec![5, 1, 5, 1, 2]));
}

#[test]
fn marks_before_choose() {
    expect_feeds(&[
        (&[1], &[10, 16, 1, 15, 0, 2], &[1], &[1], &[1], &[10, 0, 0]),
        (&[1], &[10, 17, 1, 15, 0, 2], &[1], &[1], &[1], &[10, 0, 2]),
        (
            &[1],
            &[10, 17, 1, 15, 0, 2],
            &[2],
            &[2],
            &[0],
            &[10, 0, 1, 0],
        ),
        // Choose before marks: the first to the first, the second to the second.
        (
            &[5, 1, 2],
            &[15, 16, 2, 17, 1],
            &[8],
            &[8],
            &[5, 1, 2],
            &[15, 16, 2, 17, 1],
        ),
        (
            &[5, 1, 2],
            &[15, 16, 2, 17, 1],
            &[9, 1],
            &[9, 1],
            &[1],
            &[0],
        ),
        (
            &[5, 1, 2],
            &[15, 16, 2, 17, 1],
            &[10, 3],
            &[10, 3],
            &[2],
            &[0],
        ),
    ]);
}

/// A sequence whose first part is an either, and one whose second is.
const OPEN: &[u8] = &[3, 5, 1, 2, 1];
const SHUT: &[u8] = &[3, 1, 5, 1, 2];
/// Nodes that choose in the first part of a sequence.
const OPENED: &[u8] = &[9, 15, 0, 2, 0];

#[test]
fn other_kinds_on_either() {
    let stream: &[u8] = &[5, 1, 2];
    expect_feeds(&[
        (stream, &[0], &[8], &[8], stream, &[0]),
        (stream, &[0], &[9, 2], &[9, 2], &[0], &[0]),
        (stream, &[0], &[10, 3], &[10, 3], &[2], &[0]),
        (stream, &[1, 0], &[8], &[0], stream, &[1, 0]),
        (stream, &[2], &[8], &[1], stream, &[2]),
        (stream, &[2], &[9, 1], &[2], &[1], &[1, 0]),
        (stream, &[14], &[8], &[6, 0, 8], stream, &[0]),
        (
            stream,
            &[4, 0, 2],
            &[9, 1],
            &[7, 9, 1, 2],
            &[1],
            &[4, 0, 1, 0],
        ),
    ]);
}

#[test]
fn sequences_with_an_either() {
    let lamps: &[u8] = &[3, 5, 4, 1, 1, 0, 2];
    let lamps_slice: &[u8] = &[6, 9, 7, 2, 2, 3];
    let spread: &[u8] = &[3, 1, 4, 5, 0, 1, 2];
    let spread_sent: &[u8] = &[7, 6, 2, 8, 6, 2, 3];
    let level: &[u8] = &[6, 10, 4, 0, 1, 1];
    expect_feeds(&[
        (OPEN, &[7], &[5, 8], &[8], OPEN, &[7]),
        (OPEN, &[7], &[5, 10, 3], &[10, 3], &[3, 2, 1], &[7]),
        (OPEN, &[7], level, &[10, 4, 0, 1], &[1], &[1, 0]),
        (lamps, &[7], lamps_slice, &[9, 7, 2, 2], &[2], &[1, 4, 0, 0]),
        (SHUT, &[8], &[5, 2], &[8], &[3, 0, 5, 1, 2], &[8]),
        (SHUT, &[8], &[6, 2, 9, 1], &[9, 1], &[1], &[0]),
        (OPEN, OPENED, &[5, 8], &[5, 1], OPEN, OPENED),
        (OPEN, OPENED, &[5, 10, 3], &[5, 1], &[3, 2, 1], &[9, 2, 0]),
        (
            OPEN,
            OPENED,
            &[5, 10, 4, 0, 1],
            &[5, 2],
            &[3, 0, 1],
            &[9, 1, 0, 0],
        ),
        (OPEN, OPENED, &[6, 9, 2, 1], &[6, 2, 1], &[1], &[0]),
        (
            spread,
            &[13],
            &[6, 2, 7, 8, 3],
            spread_sent,
            &[4, 5, 0, 1, 2],
            &[0],
        ),
    ]);
}

/// Each rule of leaving and joining for choices.
const JOINS: [Join; 14] = [
    (&[5, 1, 2], &[8], &[5, 1, 2], &[8], &[8]),
    (&[5, 1, 2], &[8], &[5, 1, 2], &[9, 1], &[9, 1]),
    (&[5, 1, 2], &[8], &[5, 1, 2], &[10, 4, 0, 0], &[10, 4, 0, 0]),
    (&[5, 1, 2], &[9, 1], &[1], &[1], &[9, 1]),
    (&[5, 1, 2], &[9, 1], &[1], &[2], &[9, 2]),
    (&[5, 1, 2], &[9, 2], &[0], &[0], &[9, 2]),
    (&[5, 1, 2], &[10, 3], &[2], &[4, 1, 2], &[10, 4, 1, 2]),
    (&[5, 1, 2], &[10, 4, 1, 2], &[0], &[0], &[10, 4, 1, 2]),
    (&[5, 5, 1, 2, 0], &[9, 8], &[5, 1, 2], &[10, 3], &[9, 10, 3]),
    (
        &[5, 3, 1, 1, 0],
        &[9, 5, 2],
        &[3, 0, 1],
        &[6, 0, 1],
        &[9, 6, 2, 1],
    ),
    (
        &[3, 5, 1, 2, 1],
        &[5, 8],
        &[3, 5, 1, 2, 1],
        &[6, 9, 2, 1],
        &[6, 9, 2, 1],
    ),
    (
        &[3, 5, 1, 2, 1],
        &[5, 9, 1],
        &[3, 1, 1],
        &[6, 2, 1],
        &[6, 9, 2, 1],
    ),
    (
        &[3, 1, 5, 1, 2],
        &[6, 2, 8],
        &[5, 1, 2],
        &[9, 2],
        &[6, 2, 9, 2],
    ),
    (
        &[4, 5, 1, 2, 5, 1, 2],
        &[7, 8, 10, 3],
        &[4, 5, 1, 2, 2],
        &[7, 9, 2, 3],
        &[7, 9, 2, 10, 3],
    ),
];

#[test]
fn what_choices_leave_and_how_they_join() {
    expect_joins(&JOINS);
}

#[test]
fn a_choice_is_not_made_again() {
    let number = |stream: &[u8], first: &[u8], second: &[u8]| {
        let files = [section(stream), section(first), section(second)];
        join(&files[0], &files[1], &files[2], &mut []).expect_err("refused")
    };
    assert_eq!(number(&[5, 1, 2], &[9, 1], &[9, 2]), 14);
    assert_eq!(number(&[5, 1, 2], &[9, 1], &[8]), 14);
    assert_eq!(number(&[5, 1, 2], &[9, 1], &[11]), 12);
    assert_eq!(number(&[5, 1, 2], &[10, 3], &[2]), 14);
    assert_eq!(number(&[5, 1, 1], &[9, 2], &[10, 2]), 14);
    assert_eq!(number(&[5, 1, 2], &[9, 1], &[2]), 20);
    // Of an either in an either the second mark is the inner one.
    assert_eq!(number(&[5, 5, 1, 2, 0], &[9, 8], &[9, 2]), 20);
    let files = [[5, 5, 1, 2, 0].as_slice(), &[9, 8], &[9, 2]].map(section);
    let whole = answered(|buffer| join(&files[0], &files[1], &files[2], buffer));
    assert_eq!(whole, Ok(section(&[9, 9, 2])));
}

#[test]
fn complete_choices() {
    let complete = |stream: &[u8], slice: &[u8]| is_complete(&section(stream), &section(slice));
    assert_eq!(complete(&[5, 1, 2], &[8]), Ok(false));
    assert_eq!(complete(&[5, 1, 2], &[9, 1]), Ok(false));
    assert_eq!(complete(&[5, 1, 2], &[9, 2]), Ok(true));
    assert_eq!(complete(&[5, 1, 2], &[10, 3]), Ok(false));
    assert_eq!(complete(&[5, 1, 2], &[10, 4, 0, 0]), Ok(true));
    assert_eq!(complete(&[5, 0, 0], &[8]), Ok(false));
    assert_eq!(complete(&[5, 0, 0], &[9, 0]), Ok(true));
    assert_eq!(complete(&[5, 5, 0, 0, 0], &[9, 8]), Ok(false));
    assert_eq!(complete(&[5, 5, 0, 0, 0], &[9, 10, 0]), Ok(true));
    assert_eq!(complete(&[4, 0, 5, 0, 0], &[7, 0, 8]), Ok(false));
    assert_eq!(complete(&[3, 1, 5, 1, 2], &[6, 2, 9, 2]), Ok(true));
    assert_eq!(complete(&[3, 1, 5, 1, 2], &[6, 2, 8]), Ok(false));
}

#[test]
fn choices_refused() {
    // Listed now, so 14 where they do not belong.
    for kind in [8, 9, 10] {
        for stream in [&[0][..], &[1], &[2], &[3, 0, 0], &[4, 0, 0]] {
            assert_eq!(slice_number(stream, &section(&[kind])), 14);
            assert_eq!(slice_number(stream, &section(&[kind, 0, 11])), 14);
        }
    }
    for kind in 0..8 {
        assert_eq!(slice_number(&[5, 1, 2], &section(&[kind])), 14);
    }
    assert_eq!(slice_number(&[5, 1, 2], &section(&[])), 11);
    assert_eq!(slice_number(&[5, 1, 2], &section(&[11])), 12);
    assert_eq!(slice_number(&[5, 1, 2], &section(&[255])), 12);
    assert_eq!(slice_number(&[5, 1, 2], &section(&[9])), 11);
    assert_eq!(slice_number(&[5, 1, 2], &section(&[9, 11])), 12);
    assert_eq!(slice_number(&[5, 1, 2], &section(&[9, 3])), 14);
    assert_eq!(slice_number(&[5, 1, 2], &section(&[9, 8])), 14);
    assert_eq!(slice_number(&[5, 1, 2], &section(&[10, 2])), 14);
    assert_eq!(slice_number(&[5, 1, 2], &section(&[10, 4, 0])), 11);
    assert_eq!(slice_number(&[5, 1, 2], &section(&[8, 11])), 13);
    assert_eq!(slice_number(&[5, 1, 2], &section(&[9, 2, 2])), 13);
    assert_eq!(slice_number(&[5, 1, 2], &with(section(&[8]), &[0])), 13);
}

#[test]
fn choices_in_a_crossed_first_part() {
    let stream = [3, 5, 1, 2, 1];
    assert_eq!(slice_number(&stream, &section(&[6, 8])), 14);
    assert_eq!(slice_number(&stream, &section(&[6, 8, 11])), 14);
    assert_eq!(slice_number(&stream, &section(&[6, 11])), 12);
    assert_eq!(slice_number(&stream, &section(&[6, 9])), 11);
    assert_eq!(slice_number(&stream, &section(&[6, 9, 1])), 14);
    assert_eq!(slice_number(&stream, &section(&[6, 10, 3])), 14);
    assert_eq!(slice_number(&stream, &section(&[6, 9, 2])), 11);
    let whole = section(&[6, 9, 2, 1]);
    assert_eq!(is_complete(&section(&stream), &whole), Ok(false));
    assert_eq!(slice_number(&[3, 5, 0, 0, 1], &section(&[6, 8, 1])), 14);
    // The demand goes through 6, 7, 9 and 10.
    let lamps = [3, 4, 5, 1, 1, 1, 0];
    assert_eq!(slice_number(&lamps, &section(&[6, 7, 8])), 14);
    assert_eq!(slice_number(&lamps, &section(&[6, 7, 9, 2, 1])), 14);
    let rows = [3, 3, 1, 5, 5, 0, 1, 1, 0];
    assert_eq!(slice_number(&rows, &section(&[6, 6, 2, 8])), 14);
    assert_eq!(slice_number(&rows, &section(&[6, 6, 2, 9, 8])), 14);
    assert_eq!(slice_number(&rows, &section(&[6, 6, 2, 9, 10, 1])), 14);
    assert_eq!(slice_number(&rows, &section(&[6, 6, 2, 10, 1])), 14);
    let whole = section(&[6, 6, 2, 9, 10, 2, 0]);
    assert_eq!(is_complete(&section(&rows), &whole), Ok(true));
    // Inside a choice that owes nothing, neither does its sequence's second.
    let whole = section(&[9, 6, 2, 8]);
    let stream = section(&[5, 3, 1, 5, 1, 1, 0]);
    assert_eq!(is_complete(&stream, &whole), Ok(false));
}

#[test]
fn either_and_the_new_nodes_are_read() {
    assert_eq!(type_number(&section(&[5])), 1);
    assert_eq!(type_number(&section(&[5, 0])), 1);
    assert_eq!(type_number(&section(&[5, 0, 6])), 2);
    assert_eq!(type_number(&section(&[5, 0, 0, 0])), 3);
    assert_eq!(type_number(&section(&[5; 255])), 4);
    assert_eq!(type_number(&section(&[5; 254])), 1);
    let whole = with(vec![5; 127], &[1; 128]);
    assert_eq!(given(&whole, &[0]), Ok(whole));
    assert_eq!(nodes_number(&[1], &[18]), 2);
    assert_eq!(nodes_number(&[1], &[15]), 1);
    assert_eq!(nodes_number(&[1], &[15, 0]), 1);
    assert_eq!(nodes_number(&[1], &[15, 0, 18]), 2);
    assert_eq!(nodes_number(&[5, 1, 2], &[15, 0, 0, 0]), 3);
    assert_eq!(nodes_number(&[1], &[15; 63]), 5);
    assert_eq!(nodes_number(&[1], &[15; 62]), 1);
    for mark in [16, 17] {
        assert_eq!(nodes_number(&[1], &[mark]), 1);
        assert_eq!(nodes_number(&[1], &[mark, 6]), 2);
        assert_eq!(nodes_number(&[1], &[mark, 5, 0]), 1);
        assert_eq!(nodes_number(&[1], &[mark, 0, 0]), 3);
        assert_eq!(nodes_number(&[1], &with(vec![mark], &[5; 255])), 4);
        let behind = with(patch(&[1], &with(vec![mark], &[5; 255])), &[0]);
        assert_eq!(patch_number(&behind), 4);
        assert_eq!(nodes_number(&[1], &with(vec![mark], &[5; 254])), 1);
    }
    // The nodes of carried types do not count towards the 63.
    let marked = with(vec![16], &row(126));
    let nodes = with(with(with(vec![10], &marked), &[10, 2]), &marked);
    assert_eq!(given(&[1], &nodes), Ok(with(vec![5, 1], &row(126))));
}

#[test]
fn choose_wants_an_either() {
    for stream in [&[0][..], &[1], &[2], &[3, 1, 1], &[4, 1, 1]] {
        assert_eq!(nodes_number(stream, &[15, 0, 0]), 7);
        // Its own shape comes before its parts.
        assert_eq!(nodes_number(stream, &[15, 1, 1, 0]), 7);
    }
    // Either is not nullable, whatever its parts.
    assert_eq!(nodes_number(&[1], &[1, 5, 0, 0]), 6);
    assert_eq!(nodes_number(&[1], &[1, 4, 0, 5, 0, 0]), 6);
}

#[test]
fn output_types_differ() {
    assert_eq!(nodes_number(&[5, 1, 2], &[15, 0, 0]), 30);
    assert_eq!(nodes_number(&[5, 1, 1], &[15, 2, 3, 0, 0]), 30);
    assert_eq!(given(&[5, 1, 1], &[15, 0, 0]), Ok(vec![1]));
    // Compared as trees: neither both nullable nor the same parts is enough.
    assert_eq!(nodes_number(&[5, 1, 1], &[15, 1, 0, 1, 4, 0, 0]), 30);
    assert_eq!(nodes_number(&[5, 1, 1], &[15, 16, 2, 17, 2]), 30);
    assert_eq!(nodes_number(&[5, 4, 1, 2, 4, 2, 1], &[15, 0, 0]), 30);
    assert_eq!(
        given(&[5, 4, 1, 2, 4, 2, 1], &[15, 0, 4, 6, 5]),
        Ok(vec![4, 1, 2])
    );
    // After the faults of both parts.
    assert_eq!(nodes_number(&[5, 1, 2], &[15, 5, 0]), 7);
    assert_eq!(nodes_number(&[5, 1, 2], &[15, 0, 5]), 7);
    assert_eq!(nodes_number(&[5, 1, 2], &[15, 0, 1, 1]), 6);
    // Before whatever follows the choose in preorder.
    assert_eq!(nodes_number(&[5, 1, 2], &[4, 15, 0, 0, 5]), 30);
    assert_eq!(nodes_number(&[5, 1, 2], &[4, 5, 15, 0, 0]), 7);
    assert_eq!(nodes_number(&[5, 1, 2], &[10, 15, 0, 0, 5]), 30);
    assert_eq!(nodes_number(&[3, 5, 1, 2, 1], &[9, 15, 0, 0, 5]), 30);
    assert_eq!(nodes_number(&[5, 5, 1, 2, 1], &[15, 15, 0, 0, 5]), 30);
    assert_eq!(nodes_number(&[5, 1, 5, 1, 2], &[15, 5, 15, 0, 0]), 7);
    assert_eq!(nodes_number(&[5, 1, 5, 1, 2], &[15, 0, 15, 0, 0]), 30);
}

#[test]
fn choices_too_large() {
    // A mark gives one node more than both types.
    let marked = |mark: u8, pairs: usize| with(vec![mark], &row(pairs));
    assert_eq!(given(&[1], &marked(16, 126)).map(|t| t.len()), Ok(255));
    assert_eq!(given(&[1], &marked(17, 126)).map(|t| t.len()), Ok(255));
    for mark in [16, 17] {
        // A carried type of 255 is read, but what it gives is too large.
        assert_eq!(nodes_number(&[1], &marked(mark, 127)), 4);
        let behind = with(patch(&[1], &marked(mark, 127)), &[0]);
        assert_eq!(patch_number(&behind), 3);
        assert_eq!(nodes_number(&[3, 1, 1], &marked(mark, 126)), 4);
        assert_eq!(nodes_number(&row(127), &[mark, 0]), 4);
        // Whatever follows.
        let chained = with(with(vec![10], &marked(mark, 127)), &[5]);
        assert_eq!(nodes_number(&[1], &chained), 4);
    }
    // The 4 of either part comes before the 30 of choose.
    let large = with(with(vec![5], &row(125)), &[1]);
    assert_eq!(large.len(), 253);
    assert_eq!(given(&large, &[15, 2, 2]), Ok(vec![1]));
    assert_eq!(nodes_number(&large, &[15, 14, 0]), 30);
    assert_eq!(nodes_number(&large, &[15, 10, 14, 10, 14, 14, 0]), 4);
    let large = with(vec![5, 1], &row(125));
    assert_eq!(nodes_number(&large, &[15, 2, 10, 14, 10, 14, 14]), 4);
    assert_eq!(nodes_number(&large, &[4, 15, 0, 0, 4, 0, 0]), 30);
    assert_eq!(nodes_number(&large, &[4, 4, 0, 0, 15, 0, 0]), 4);
}

#[test]
fn thirty_one_choices_deep() {
    let left = with(vec![5; 31], &[1; 32]);
    let nodes = with(vec![15; 31], &[0; 32]);
    let right = with([5, 1].repeat(31), &[1]);
    let right_nodes = with([15, 0].repeat(31), &[0]);
    for (stream, nodes, mark) in [(&left, &nodes, 9), (&right, &right_nodes, 10)] {
        assert_eq!(given(stream, nodes), Ok(vec![1]));
        for depth in 0..31 {
            let slice = with(vec![mark; depth], &[8]);
            let (sent, file) = fed(&patch(stream, nodes), &section(&slice)).expect("fits");
            assert_eq!(sent, section(&[1]));
            assert_eq!(file.len(), 2 * (2 + 63 - 2 * depth) + TOTALS_SECTION);
        }
        let whole = with(vec![mark; 31], &[2]);
        let answer = fed(&patch(stream, nodes), &section(&whole));
        assert_eq!(answer, Ok((section(&[2]), patch(&[0], &[0]))));
    }
    // A difference in the innermost alone.
    let last = with(with(vec![15; 31], &[2, 3, 0, 0]), &[2; 30]);
    assert_eq!(nodes_number(&left, &last), 30);
}

#[test]
fn longest_patch_with_marks() {
    let mut nodes = vec![10; 31];
    for _ in 0..32 {
        nodes.extend(with(vec![17], &row(127)));
    }
    assert_eq!(patch(&row(127), &nodes).len(), 8_492);
    assert_eq!(nodes_number(&row(127), &nodes), 4);
    nodes.extend([18]);
    assert_eq!(nodes_number(&row(127), &nodes), 3);
}
