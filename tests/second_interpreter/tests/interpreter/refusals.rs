//! Which refusal comes first.

use crate::common::{answered, fed, is_complete, patch, section};
use second_interpreter::{admit, check, feed, join, left, longest, Number};

/// The number with which Check and Feed refuse a patch file.
pub fn patch_number(file: &[u8]) -> Number {
    let number = answered(|buffer| check(file, buffer)).expect_err("refused");
    assert_eq!(fed(file, &[]), Err(number), "{file:?}");
    assert_eq!(check(file, &mut []), Err(number), "{file:?}");
    number
}

/// The number of a patch of these sections.
pub fn nodes_number(stream: &[u8], nodes: &[u8]) -> Number {
    patch_number(&patch(stream, nodes))
}

/// The number of a type file, the same in Admit, Left, Join and the longest slice's
/// operation, whatever its buffer.
pub fn type_number(file: &[u8]) -> Number {
    let number = admit(file, &[]).expect_err("refused");
    assert_eq!(left(file, &[], &mut []), Err(number), "{file:?}");
    assert_eq!(join(file, &[], &[], &mut []), Err(number), "{file:?}");
    assert_eq!(longest(file, &mut []), Err(number), "{file:?}");
    let mut buffer = [7; 600];
    assert_eq!(longest(file, &mut buffer), Err(number), "{file:?}");
    assert_eq!(buffer, [7; 600], "{file:?}");
    number
}

/// The number of a slice file, the same in Admit, Left, Join and Feed.
pub fn slice_number(stream: &[u8], file: &[u8]) -> Number {
    let type_file = section(stream);
    let number = admit(&type_file, file).expect_err("refused");
    assert_eq!(left(&type_file, file, &mut []), Err(number), "{file:?}");
    assert_eq!(
        join(&type_file, file, &[], &mut []),
        Err(number),
        "{file:?}"
    );
    let patch = patch(stream, &[0]);
    assert_eq!(
        feed(&patch, file, &mut [], &mut []),
        Err(number),
        "{file:?}"
    );
    number
}

/// These bytes, then those.
pub fn with(mut bytes: Vec<u8>, more: &[u8]) -> Vec<u8> {
    bytes.extend_from_slice(more);
    bytes
}

#[test]
fn sections_of_a_type_file() {
    assert_eq!(type_number(&[]), 1);
    assert_eq!(type_number(&[0]), 1);
    assert_eq!(type_number(&[9]), 1);
    assert_eq!(type_number(&[0, 0]), 1);
    assert_eq!(type_number(&[0, 0, 9]), 1);
    // The length is tried before the contents, which would give 2.
    assert_eq!(type_number(&[0, 2, 9]), 1);
    assert_eq!(type_number(&[255, 255, 9]), 1);
    assert_eq!(type_number(&[0, 1, 6]), 2);
    assert_eq!(type_number(&[0, 1, 6, 0]), 2);
    assert_eq!(type_number(&[0, 2, 3, 6]), 2);
    assert_eq!(type_number(&[0, 2, 3, 0]), 1);
    assert_eq!(type_number(&[0, 2, 3, 0, 0]), 1);
    assert_eq!(type_number(&[0, 2, 0, 9]), 3);
    assert_eq!(type_number(&[0, 1, 0, 9]), 3);
}

#[test]
fn sections_of_a_patch_file() {
    assert_eq!(patch_number(&[]), 1);
    assert_eq!(patch_number(&[0, 1, 0]), 1);
    assert_eq!(patch_number(&[0, 1, 0, 0]), 1);
    assert_eq!(patch_number(&[0, 1, 0, 0, 0]), 1);
    assert_eq!(patch_number(&[0, 1, 0, 0, 2, 18]), 1);
    assert_eq!(patch_number(&[0, 1, 0, 0, 1, 18]), 2);
    assert_eq!(patch_number(&[0, 1, 0, 0, 2, 0, 18]), 3);
    // Behind the nodes the third section begins; `totals` has more of it.
    assert_eq!(patch_number(&[0, 1, 0, 0, 1, 0, 18]), 1);
    assert_eq!(patch_number(&with(patch(&[0], &[0]), &[18])), 3);
    // The type section ends before the next begins.
    assert_eq!(patch_number(&[0, 2, 0, 0]), 3);
    assert_eq!(patch_number(&[0, 1, 6]), 2);
    // A type section does not reach into the nodes.
    assert_eq!(patch_number(&[0, 2, 3, 0, 0, 1, 0]), 1);
}

#[test]
fn limit_of_a_type_while_reading() {
    // The 256th node is needed: 4 comes before 1 and 2.
    assert_eq!(type_number(&section(&[3; 255])), 4);
    assert_eq!(type_number(&section(&with(vec![3; 255], &[9]))), 4);
    assert_eq!(type_number(&section(&[3; 60_000])), 4);
    // The 255th is needed: 1 comes before 2.
    assert_eq!(type_number(&section(&[3; 254])), 1);
    assert_eq!(type_number(&section(&with(vec![3; 254], &[9]))), 2);
    // A 256th node is certain to come, but not yet needed.
    assert_eq!(type_number(&section(&[4; 128])), 1);
    assert_eq!(type_number(&section(&with(vec![4; 128], &[9]))), 2);
    // A whole type of 255 with more behind it needs no 256th.
    let whole = with(vec![4; 127], &[0; 128]);
    assert_eq!(type_number(&section(&with(whole, &[9]))), 3);
    // The section's length still comes first.
    let longer = with(vec![1, 1], &[3; 256]);
    assert_eq!(type_number(&longer), 1);
}

#[test]
fn limit_of_nodes_while_reading() {
    assert_eq!(nodes_number(&[1], &[10; 63]), 5);
    assert_eq!(nodes_number(&[1], &with(vec![10; 63], &[99])), 5);
    assert_eq!(nodes_number(&[1], &[4; 60_000]), 5);
    assert_eq!(nodes_number(&[1], &[9; 62]), 1);
    assert_eq!(nodes_number(&[1], &with(vec![9; 62], &[99])), 2);
    assert_eq!(nodes_number(&[1], &[10; 32]), 1);
    let whole = with(vec![10; 31], &[0; 32]);
    assert_eq!(nodes_number(&[1], &with(whole, &[0])), 3);
}

#[test]
fn carried_types_and_values() {
    assert_eq!(nodes_number(&[1], &[1]), 1);
    assert_eq!(nodes_number(&[1], &[1, 6]), 2);
    assert_eq!(nodes_number(&[1], &[1, 4, 0]), 1);
    assert_eq!(nodes_number(&[1], &[1, 0, 0]), 3);
    assert_eq!(nodes_number(&[1], &with(vec![1], &[4; 255])), 4);
    assert_eq!(nodes_number(&[1], &with(vec![1], &[4; 254])), 1);
    assert_eq!(nodes_number(&[1], &[3]), 1);
    assert_eq!(nodes_number(&[1], &[3, 255]), 1);
    assert_eq!(nodes_number(&[1], &[3, 255, 255, 255]), 3);
    let level = answered(|buffer| check(&patch(&[1], &[3, 255, 255]), buffer));
    assert_eq!(level, Ok(section(&[2])));
    // The 63rd node may carry a type; the 64th is not read for its own.
    let last_silent = with(with(vec![10; 31], &[0; 31]), &[1]);
    assert_eq!(nodes_number(&[1], &with(last_silent.clone(), &[4; 255])), 4);
    assert_eq!(nodes_number(&[1], &last_silent), 1);
    // The deepest reading there is: 63 nodes, then 255 of a type.
    let deepest = with(with(vec![10; 62], &[1]), &[4; 255]);
    assert_eq!(nodes_number(&[1], &deepest), 4);
    // Each carried type has a limit of its own.
    let large = with(vec![4; 127], &[0; 128]);
    let two = with(with(with(vec![10, 1], &large), &[1]), &large);
    let answer = answered(|buffer| check(&patch(&[1], &two), buffer));
    assert_eq!(answer, Ok(section(&large)));
}

#[test]
fn first_pass_before_second() {
    assert_eq!(nodes_number(&[1], &[5, 0]), 3);
    assert_eq!(nodes_number(&[1], &[4, 5, 99]), 2);
    assert_eq!(nodes_number(&[1], &[10, 5]), 1);
    assert_eq!(nodes_number(&[1], &[1, 1, 0]), 3);
    assert_eq!(patch_number(&with(patch(&[1], &[5]), &[0])), 3);
}

#[test]
fn shapes() {
    let streams: [&[u8]; 10] = [
        &[0],
        &[1],
        &[2],
        &[4, 1, 1],
        &[3, 1, 1],
        &[3, 3, 1, 2, 0],
        &[3, 1, 3, 2, 0],
        &[3, 1, 4, 2, 0],
        &[4, 3, 1, 1, 3, 1, 1],
        &[5, 3, 1, 1, 4, 1, 1],
    ];
    let given = |stream: &[u8], node: u8| answered(|b| check(&patch(stream, &[node]), b));
    let sequences: [usize; 4] = [4, 5, 6, 7];
    for (place, stream) in streams.iter().enumerate() {
        assert_eq!(given(stream, 5).is_ok(), [3, 8].contains(&place));
        assert_eq!(given(stream, 6).is_ok(), [3, 8].contains(&place));
        assert_eq!(given(stream, 7).is_ok(), sequences.contains(&place));
        assert_eq!(given(stream, 8).is_ok(), sequences.contains(&place));
        assert_eq!(given(stream, 11).is_ok(), place == 5);
        assert_eq!(given(stream, 12).is_ok(), place == 6);
        assert_eq!(given(stream, 13).is_ok(), place == 7);
        for node in [5, 6, 7, 8, 11, 12, 13] {
            assert_eq!(given(stream, node).err().unwrap_or(7), 7);
        }
        for node in [0, 2, 14] {
            assert!(given(stream, node).is_ok());
        }
    }
    assert_eq!(given(streams[5], 11), Ok(section(streams[6])));
    assert_eq!(given(streams[6], 12), Ok(section(streams[5])));
    assert_eq!(given(streams[7], 13), Ok(section(&[4, 3, 1, 2, 3, 1, 0])));
    assert_eq!(given(&[2], 14), Ok(section(&[3, 0, 2])));
}

#[test]
fn second_pass_in_preorder() {
    // Both: the first part's fault first.
    assert_eq!(nodes_number(&[1], &[4, 5, 1, 1]), 7);
    assert_eq!(nodes_number(&[1], &[4, 1, 1, 5]), 6);
    // Then: its own shape before its parts.
    assert_eq!(nodes_number(&[1], &[9, 1, 1, 1, 1]), 7);
    assert_eq!(nodes_number(&[3, 1, 1], &[9, 1, 1, 5]), 6);
    // Chain: the second is judged by what the first gives.
    assert_eq!(nodes_number(&[4, 1, 1], &[10, 5, 5]), 7);
    assert_eq!(nodes_number(&[1], &[10, 2, 1, 2]), 6);
    assert_eq!(nodes_number(&[1], &[10, 5, 1, 2]), 7);
}

#[test]
fn given_types_too_large() {
    let large = with(with(vec![3], &[4; 126]), &[1; 128]);
    assert_eq!(large.len(), 255);
    // A part's 4 comes before what follows that part.
    assert_eq!(nodes_number(&large, &[4, 14, 5]), 4);
    assert_eq!(nodes_number(&large, &[4, 5, 14]), 7);
    assert_eq!(nodes_number(&large, &[4, 1, 1, 14]), 6);
    assert_eq!(nodes_number(&large, &[10, 14, 1, 1]), 4);
    // What is too large between two nodes is refused, whatever follows.
    assert_eq!(nodes_number(&large, &[10, 14, 8]), 4);
    assert_eq!(nodes_number(&large, &[10, 14, 2]), 4);
    // The parts before the whole.
    assert_eq!(nodes_number(&large, &[4, 0, 1, 1]), 6);
    assert_eq!(nodes_number(&large, &[4, 0, 2]), 4);
    // Both of 127 and 127 is 255; of 129 and 129 too large.
    let even = with(vec![3; 63], &[2; 64]);
    assert!(answered(|buffer| check(&patch(&even, &[4, 0, 0]), buffer)).is_ok());
    let odd = with(vec![3; 64], &[2; 65]);
    assert_eq!(nodes_number(&odd, &[4, 0, 0]), 4);
    // The same in the first part of then, before its second part's 7.
    let in_then = with(with(vec![3], &odd), &[1]);
    assert_eq!(nodes_number(&in_then, &[9, 4, 0, 0, 5]), 4);
    assert_eq!(nodes_number(&in_then, &[9, 0, 5]), 7);
    // Spread doubles its first part.
    let spread = |pairs: usize| with(with(vec![3; pairs + 1], &vec![1; pairs + 1]), &[4, 1, 1]);
    assert!(answered(|buffer| check(&patch(&spread(62), &[13]), buffer)).is_ok());
    assert_eq!(nodes_number(&spread(63), &[13]), 4);
}

#[test]
fn sections_of_a_slice_file() {
    assert_eq!(slice_number(&[1], &[]), 11);
    assert_eq!(slice_number(&[1], &[0]), 11);
    assert_eq!(slice_number(&[1], &[99]), 11);
    assert_eq!(slice_number(&[1], &[0, 0]), 11);
    assert_eq!(slice_number(&[1], &[0, 0, 1]), 11);
    assert_eq!(slice_number(&[1], &[0, 2, 99]), 11);
    assert_eq!(slice_number(&[1], &[0, 2, 0]), 11);
    assert_eq!(slice_number(&[1], &[0, 1, 11]), 12);
    assert_eq!(slice_number(&[1], &[0, 1, 255, 0]), 12);
    assert_eq!(slice_number(&[1], &[0, 1, 0]), 14);
    assert_eq!(slice_number(&[1], &[0, 2, 0, 0]), 14);
    assert_eq!(slice_number(&[1], &[0, 1, 0, 0]), 14);
    assert_eq!(slice_number(&[1], &[0, 2, 2, 99]), 13);
    assert_eq!(slice_number(&[1], &[0, 1, 2, 99]), 13);
}

#[test]
fn kinds_of_a_slice() {
    let belong: [(&[u8], &[u8]); 6] = [
        (&[0], &[0]),
        (&[1], &[1, 2]),
        (&[2], &[3, 4]),
        (&[3, 0, 0], &[5, 6]),
        (&[4, 0, 0], &[7]),
        (&[5, 0, 0], &[8, 9, 10]),
    ];
    for (stream, kinds) in belong {
        for kind in 0..=255 {
            let file = section(&[kind, 0, 0]);
            let number = admit(&section(stream), &file).err();
            if kind > 10 {
                assert_eq!(number, Some(12));
            } else if kinds.contains(&kind) {
                assert!([None, Some(13)].contains(&number));
            } else {
                assert_eq!(number, Some(14));
            }
        }
    }
}

#[test]
fn level_values_of_a_slice() {
    assert_eq!(slice_number(&[2], &section(&[4])), 11);
    assert_eq!(slice_number(&[2], &section(&[4, 99])), 11);
    assert_eq!(slice_number(&[2], &section(&[4, 99, 99, 99])), 13);
    assert_eq!(slice_number(&[2], &with(section(&[4, 99]), &[99])), 11);
    assert_eq!(slice_number(&[1], &section(&[4])), 14);
    assert_eq!(is_complete(&section(&[2]), &section(&[4, 0, 0])), Ok(true));
    assert_eq!(
        is_complete(&section(&[2]), &section(&[4, 255, 255])),
        Ok(true)
    );
    assert_eq!(is_complete(&section(&[2]), &section(&[3])), Ok(false));
}

#[test]
fn crossed_first_parts() {
    // 14 falls at the kind byte itself, before what should follow it.
    assert_eq!(slice_number(&[3, 1, 1], &section(&[6])), 11);
    assert_eq!(slice_number(&[3, 1, 1], &section(&[6, 11])), 12);
    assert_eq!(slice_number(&[3, 1, 1], &section(&[6, 1])), 14);
    assert_eq!(slice_number(&[3, 1, 1], &section(&[6, 1, 11])), 14);
    assert_eq!(slice_number(&[3, 2, 1], &section(&[6, 3])), 14);
    assert_eq!(slice_number(&[3, 1, 1], &section(&[6, 2])), 11);
    // A sequence as first part: 5 is refused at once, 6 asks on.
    let nested = [3, 3, 1, 1, 1];
    assert_eq!(slice_number(&nested, &section(&[6, 5])), 14);
    assert_eq!(slice_number(&nested, &section(&[6, 5, 11])), 14);
    assert_eq!(slice_number(&nested, &section(&[6, 6, 1])), 14);
    assert_eq!(slice_number(&nested, &section(&[6, 6, 2, 1])), 14);
    assert_eq!(slice_number(&nested, &section(&[6, 6, 2, 2])), 11);
    let whole = section(&[6, 6, 2, 2, 1]);
    assert_eq!(is_complete(&section(&nested), &whole), Ok(false));
    // Sides of a first part are each owed.
    let beside = [3, 4, 1, 2, 1];
    assert_eq!(slice_number(&beside, &section(&[6, 7, 1])), 14);
    assert_eq!(slice_number(&beside, &section(&[6, 7, 2, 3])), 14);
    assert_eq!(slice_number(&beside, &section(&[6, 7, 2, 4, 0])), 11);
    let whole = section(&[6, 7, 2, 4, 0, 0, 2]);
    assert_eq!(is_complete(&section(&beside), &whole), Ok(true));
    // The second part of an outer crossing owes nothing.
    let whole = section(&[6, 2, 5, 1]);
    assert_eq!(is_complete(&section(&[3, 1, 3, 1, 1]), &whole), Ok(false));
}

#[test]
fn empty_in_sequence() {
    let stream = section(&[3, 0, 0]);
    assert_eq!(is_complete(&stream, &section(&[5, 0])), Ok(false));
    assert_eq!(is_complete(&stream, &section(&[6, 0, 0])), Ok(true));
    assert_eq!(
        answered(|buffer| left(&stream, &section(&[5, 0]), buffer)),
        Ok(stream.clone())
    );
    // As a first part its crossing is still owed.
    let outer = [3, 3, 0, 0, 1];
    assert_eq!(slice_number(&outer, &section(&[6, 5, 0, 1])), 14);
    let whole = section(&[6, 6, 0, 0, 1]);
    assert_eq!(is_complete(&section(&outer), &whole), Ok(false));
}

#[test]
fn second_slice_of_join() {
    let stream = section(&[3, 1, 2]);
    let first = section(&[5, 2]);
    let number = |second: &[u8]| join(&stream, &first, second, &mut []).expect_err("refused");
    assert_eq!(number(&[]), 11);
    assert_eq!(number(&section(&[5])), 11);
    assert_eq!(number(&section(&[11])), 12);
    assert_eq!(number(&section(&[5, 0, 0])), 13);
    // What is left of the cue is empty, to which 1 and 2 no longer belong.
    assert_eq!(number(&section(&[5, 1])), 14);
    assert_eq!(number(&section(&[6, 2, 3])), 14);
    assert_eq!(number(&section(&[6, 0, 3])), 20);
    // The first slice's faults come first.
    assert_eq!(join(&stream, &section(&[5]), &[9], &mut []), Err(11));
    assert_eq!(join(&[0, 1, 7], &section(&[5]), &[9], &mut []), Err(2));
}

#[test]
fn too_short_buffers() {
    let start = patch(&[1], &[10, 14, 9, 2, 0]);
    for length in 0..8 {
        let mut buffer = vec![7; length];
        let answer = check(&start, &mut buffer);
        if length < 5 {
            assert_eq!(answer, Err(20));
            assert_eq!(buffer, vec![7; length]);
        } else {
            assert_eq!(answer, Ok(5));
            assert_eq!(buffer[..5], [0, 3, 3, 1, 1]);
            assert_eq!(buffer[5..], vec![7; length - 5]);
        }
    }
    let stream = section(&[3, 1, 1]);
    let slice = section(&[5, 2]);
    assert_eq!(left(&stream, &slice, &mut [0; 4]), Err(20));
    assert_eq!(left(&stream, &slice, &mut [0; 5]), Ok(5));
    let next = section(&[6, 0, 1]);
    assert_eq!(join(&stream, &slice, &next, &mut [0; 4]), Err(20));
    assert_eq!(join(&stream, &slice, &next, &mut [0; 5]), Ok(5));
}

#[test]
fn too_short_buffers_of_feed() {
    let start = patch(&[1], &[10, 14, 9, 2, 0]);
    let slice = section(&[1]);
    for output_length in 3..8 {
        for left_length in 16..21 {
            let mut output = vec![7; output_length];
            let mut left = vec![9; left_length];
            let answer = feed(&start, &slice, &mut output, &mut left);
            if output_length < 5 || left_length < 18 {
                assert_eq!(answer, Err(20));
                assert_eq!(output, vec![7; output_length]);
                assert_eq!(left, vec![9; left_length]);
            } else {
                let answer = answer.map(|written| (written.output, written.patch));
                assert_eq!(answer, Ok((5, 18)));
                assert_eq!(output[..5], [0, 3, 6, 2, 1]);
                assert_eq!(left[..8], [0, 1, 1, 0, 3, 10, 0, 0]);
                assert_eq!(left[8..18], [0, 8, 0, 0, 0, 0, 0, 0, 0, 1]);
                assert_eq!(output[5..], vec![7; output_length - 5]);
                assert_eq!(left[18..], vec![9; left_length - 18]);
            }
        }
    }
    // The slice is judged before the buffers.
    assert_eq!(feed(&start, &section(&[3]), &mut [], &mut []), Err(14));
}

#[test]
fn a_mebibyte_of_anything_ends() {
    for byte in 0..=255 {
        let bytes = vec![byte; 1 << 20];
        assert!(answered(|buffer| check(&bytes, buffer)).is_err());
        assert!(admit(&bytes, &bytes).is_err());
        assert!(answered(|buffer| longest(&bytes, buffer)).is_err());
        let patched = with(section(&[3, 1, 1]), &bytes);
        assert!(answered(|buffer| check(&patched, buffer)).is_err());
        assert!(fed(&patch(&[3, 1, 1], &[0]), &bytes).is_err());
    }
}
