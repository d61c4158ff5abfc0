//! The ten cases of document 01, the eighth as M-103 has it, as bytes through the
//! operations.

use crate::common::{answered, fed, is_complete, patch, section};
use second_interpreter::{admit, check, join, left, run_program};

/// Feeds sections; expects the sections sent and left.
fn expect_feed(
    stream: &[u8],
    nodes: &[u8],
    slice: &[u8],
    sent: &[u8],
    stream_left: &[u8],
    nodes_left: &[u8],
) {
    let answer = fed(&patch(stream, nodes), &section(slice));
    assert_eq!(
        answer,
        Ok((section(sent), patch(stream_left, nodes_left))),
        "type {stream:?}, nodes {nodes:?}, slice {slice:?}"
    );
}

/// So many of a two-part kind, all before so many leaves and one more.
fn left_deep(two_part: u8, leaf: u8, pairs: usize) -> Vec<u8> {
    let mut bytes = vec![two_part; pairs];
    bytes.extend(vec![leaf; pairs + 1]);
    bytes
}

/// As `left_deep`, with every two-part kind in the second part of the last.
fn right_deep(two_part: u8, leaf: u8, pairs: usize) -> Vec<u8> {
    let mut bytes = [two_part, leaf].repeat(pairs);
    bytes.push(leaf);
    bytes
}

#[test]
fn case_1_swap() {
    let start = patch(&[4, 1, 2], &[4, 6, 5]);
    assert_eq!(
        answered(|buffer| check(&start, buffer)),
        Ok(section(&[4, 2, 1]))
    );
    expect_feed(
        &[4, 1, 2],
        &[4, 6, 5],
        &[7, 2, 3],
        &[7, 3, 2],
        &[4, 0, 2],
        &[4, 6, 5],
    );
}

#[test]
fn case_2_prepend() {
    let start = patch(&[1], &[10, 14, 9, 2, 0]);
    assert_eq!(
        answered(|buffer| check(&start, buffer)),
        Ok(section(&[3, 1, 1]))
    );
    expect_feed(
        &[1],
        &[10, 14, 9, 2, 0],
        &[1],
        &[6, 2, 1],
        &[1],
        &[10, 0, 0],
    );
    expect_feed(&[1], &[10, 0, 0], &[2], &[2], &[0], &[10, 0, 0]);
}

#[test]
fn case_2_in_the_program() {
    let mut input = section(&patch(&[1], &[10, 14, 9, 2, 0]));
    input.extend(section(&section(&[1])));
    input.extend(section(&section(&[2])));
    let mut output = Vec::new();
    run_program(&mut input.as_slice(), &mut output).expect("memory does not fail");
    assert_eq!(
        String::from_utf8(output).expect("lines are text"),
        "0 060201 01\n0 02 00\n"
    );
}

#[test]
fn case_3_prepend_at_once() {
    expect_feed(
        &[1],
        &[10, 14, 9, 2, 0],
        &[2],
        &[6, 2, 2],
        &[0],
        &[10, 0, 0],
    );
}

#[test]
fn case_4_first() {
    expect_feed(&[3, 1, 1], &[7], &[5, 2], &[2], &[3, 0, 1], &[7]);
    expect_feed(&[3, 1, 1], &[7], &[6, 2, 1], &[2], &[1], &[1, 0]);
}

#[test]
fn case_5_spread() {
    let stream = [3, 1, 4, 1, 1];
    let start = patch(&stream, &[13]);
    assert_eq!(
        answered(|buffer| check(&start, buffer)),
        Ok(section(&[4, 3, 1, 1, 3, 1, 1]))
    );
    expect_feed(
        &stream,
        &[13],
        &[5, 2],
        &[7, 5, 2, 5, 2],
        &[3, 0, 4, 1, 1],
        &[13],
    );
    expect_feed(
        &stream,
        &[13],
        &[6, 2, 7, 2, 1],
        &[7, 6, 2, 2, 6, 2, 1],
        &[4, 0, 1],
        &[0],
    );
}

#[test]
fn case_6_regroup_right() {
    expect_feed(
        &[3, 3, 1, 1, 1],
        &[11],
        &[5, 6, 2, 1],
        &[6, 2, 5, 1],
        &[3, 1, 1],
        &[0],
    );
}

#[test]
fn case_7_crossing() {
    let stream = section(&[3, 1, 1]);
    assert_eq!(admit(&stream, &section(&[6, 1, 1])), Err(14));
    assert_eq!(is_complete(&stream, &section(&[6, 2, 1])), Ok(false));
    assert_eq!(is_complete(&stream, &section(&[6, 2, 2])), Ok(true));
    assert_eq!(
        answered(|buffer| left(&stream, &section(&[5, 2]), buffer)),
        Ok(section(&[3, 0, 1]))
    );
    assert_eq!(
        answered(|buffer| join(&stream, &section(&[5, 2]), &section(&[6, 0, 1]), buffer)),
        Ok(section(&[6, 2, 1]))
    );
}

#[test]
fn case_8_least() {
    expect_feed(&[0], &[0], &[0], &[0], &[0], &[0]);
    // M-103: "in case 8 node 2 now sends 1 and stays".
    expect_feed(&[1], &[2], &[1], &[1], &[1], &[2]);
}

#[test]
fn case_9_second_pass() {
    let checked =
        |stream: &[u8], nodes: &[u8]| answered(|buffer| check(&patch(stream, nodes), buffer));
    assert_eq!(checked(&[3, 1, 1], &[5]), Err(7));
    assert_eq!(checked(&[1], &[1, 3, 0, 0]), Err(6));
    assert_eq!(checked(&[1], &[1, 4, 0, 0]), Ok(section(&[4, 0, 0])));
}

#[test]
fn case_10_nodes() {
    for nodes in [left_deep(10, 0, 31), right_deep(10, 0, 31)] {
        assert_eq!(nodes.len(), 63);
        let file = patch(&[1], &nodes);
        assert_eq!(answered(|buffer| check(&file, buffer)), Ok(section(&[1])));
        let answer = fed(&file, &section(&[2]));
        assert_eq!(answer, Ok((section(&[2]), patch(&[0], &nodes))));
    }
    for nodes in [left_deep(10, 0, 32), right_deep(10, 0, 32)] {
        assert_eq!(nodes.len(), 65);
        let file = patch(&[1], &nodes);
        assert_eq!(answered(|buffer| check(&file, buffer)), Err(5));
        assert_eq!(fed(&file, &section(&[2])), Err(5));
    }
}

#[test]
fn case_10_type_read() {
    for kind in [3, 4] {
        for stream in [left_deep(kind, 2, 127), right_deep(kind, 2, 127)] {
            assert_eq!(stream.len(), 255);
            let file = patch(&stream, &[0]);
            assert_eq!(
                answered(|buffer| check(&file, buffer)),
                Ok(section(&stream))
            );
        }
        for stream in [left_deep(kind, 2, 128), right_deep(kind, 2, 128)] {
            assert_eq!(stream.len(), 257);
            let file = patch(&stream, &[0]);
            assert_eq!(answered(|buffer| check(&file, buffer)), Err(4));
            assert_eq!(admit(&section(&stream), &section(&[3])), Err(4));
        }
    }
}

#[test]
fn case_10_type_carried() {
    let carried = |pairs| {
        let mut nodes = vec![1];
        nodes.extend(left_deep(4, 0, pairs));
        patch(&[1], &nodes)
    };
    assert_eq!(
        answered(|buffer| check(&carried(127), buffer)),
        Ok(section(&left_deep(4, 0, 127)))
    );
    assert_eq!(answered(|buffer| check(&carried(128), buffer)), Err(4));
}

#[test]
fn case_10_type_given() {
    // Front gives two nodes more than it takes.
    let fronted = |pairs| patch(&right_deep(3, 1, pairs), &[14]);
    let mut given = vec![3, 0];
    given.extend(right_deep(3, 1, 126));
    assert_eq!(given.len(), 255);
    assert_eq!(
        answered(|buffer| check(&fronted(126), buffer)),
        Ok(section(&given))
    );
    assert_eq!(answered(|buffer| check(&fronted(127), buffer)), Err(4));
}

#[test]
fn longest_files() {
    // 63 nodes, 32 of them silent with 255 each, and an input type of 255.
    let mut nodes = vec![4; 31];
    for _ in 0..32 {
        nodes.push(1);
        nodes.extend(left_deep(4, 0, 127));
    }
    let file = patch(&left_deep(4, 2, 127), &nodes);
    assert_eq!(file.len(), 8_492);
    // Both of two 255s is too large, so this patch ends in the second pass.
    assert_eq!(answered(|buffer| check(&file, buffer)), Err(4));
    // In chains each silent stands alone.
    let mut nodes = vec![10; 31];
    for _ in 0..32 {
        nodes.push(1);
        nodes.extend(left_deep(4, 0, 127));
    }
    let file = patch(&left_deep(4, 2, 127), &nodes);
    assert_eq!(file.len(), 8_492);
    let mut slice = vec![7; 127];
    slice.extend([4, 255, 254].repeat(128));
    assert_eq!(section(&slice).len(), 513);
    let mut sent = vec![7; 127];
    sent.extend(vec![0; 128]);
    assert_eq!(
        fed(&file, &section(&slice)),
        Ok((section(&sent), patch(&left_deep(4, 0, 127), &nodes)))
    );
    // One byte more is left over.
    let longer = [&file[..], &[0]].concat();
    assert_eq!(fed(&longer, &section(&slice)), Err(3));
}
