//! Request M-101: the longest slice of a type, as bytes, against all slices of
//! small types, and against a second measure and random slices of large ones. The
//! faults of its type file are in `refusals`, with those of the other operations.

use second_interpreter::{
    every_slice, every_type, longest, longest_by_trying, longest_slice, slice_file, type_file,
    Slice, Type,
};

use crate::common::{answered, is_complete, section};
use crate::generator::{full_type, random_slice, random_type, Random};
use crate::properties::keeps_its_word;
use crate::refusals::with;

/// The file that the operation writes for a type, with no fault and room enough.
fn longest_file(stream: &Type) -> Vec<u8> {
    answered(|buffer| longest(&type_file(stream), buffer)).expect("a type")
}

/// Expects the section written for each type section of a table.
fn expect_longest(table: &[(&[u8], &[u8])]) {
    for (stream, slice) in table {
        let answer = answered(|buffer| longest(&section(stream), buffer));
        assert_eq!(answer, Ok(section(slice)), "type {stream:?}");
        assert_eq!(is_complete(&section(stream), &section(slice)), Ok(true));
    }
}

#[test]
fn every_kind_of_type() {
    expect_longest(&[
        (&[0], &[0]),
        (&[1], &[2]),
        (&[2], &[4, 255, 255]),
        (&[3, 0, 0], &[6, 0, 0]),
        (&[3, 1, 2], &[6, 2, 4, 255, 255]),
        (&[3, 3, 1, 2, 0], &[6, 6, 2, 4, 255, 255, 0]),
        (&[4, 0, 0], &[7, 0, 0]),
        (&[4, 1, 1], &[7, 2, 2]),
        (&[4, 1, 2], &[7, 2, 4, 255, 255]),
        (&[4, 3, 1, 1, 4, 2, 0], &[7, 6, 2, 2, 7, 4, 255, 255, 0]),
        (&[5, 0, 0], &[9, 0]),
        (&[5, 1, 2], &[10, 4, 255, 255]),
        (&[5, 2, 1], &[9, 4, 255, 255]),
        (
            &[3, 5, 1, 2, 5, 2, 1],
            &[6, 10, 4, 255, 255, 9, 4, 255, 255],
        ),
    ]);
}

#[test]
fn equally_long_sides() {
    expect_longest(&[
        (&[5, 1, 1], &[9, 2]),
        (&[5, 2, 2], &[9, 4, 255, 255]),
        // The first, though a cue would come in the second.
        (&[5, 0, 1], &[9, 0]),
        (&[5, 1, 0], &[9, 2]),
        // Equally long in bytes, of unequal numbers of nodes.
        (&[5, 2, 4, 1, 1], &[9, 4, 255, 255]),
        (&[5, 2, 3, 0, 1], &[9, 4, 255, 255]),
        (&[5, 4, 1, 1, 2], &[9, 7, 2, 2]),
        (&[5, 2, 5, 5, 1, 1, 1], &[9, 4, 255, 255]),
        // Of equal numbers of nodes, not equally long in bytes.
        (&[5, 4, 1, 1, 3, 1, 2], &[10, 6, 2, 4, 255, 255]),
        (&[5, 5, 1, 1, 4, 1, 1], &[10, 7, 2, 2]),
        (&[5, 4, 1, 1, 5, 1, 1], &[9, 7, 2, 2]),
        // An inner mark counts, so the outer sides are not equally long.
        (&[5, 1, 5, 1, 1], &[10, 9, 2]),
        (&[5, 5, 1, 1, 1], &[9, 9, 2]),
        // The inner sides, and the outer ones.
        (&[5, 5, 0, 1, 5, 1, 0], &[9, 9, 0]),
        (&[5, 5, 1, 2, 5, 2, 1], &[9, 10, 4, 255, 255]),
        (&[4, 5, 1, 1, 5, 0, 0], &[7, 9, 2, 9, 0]),
    ]);
}

#[test]
fn buffers_of_every_length() {
    let stream = section(&[5, 1, 2]);
    for length in 0..9 {
        let mut buffer = vec![7; length];
        let answer = longest(&stream, &mut buffer);
        if length < 6 {
            assert_eq!(answer, Err(20));
            assert_eq!(buffer, vec![7; length]);
        } else {
            assert_eq!(answer, Ok(6));
            assert_eq!(buffer[..6], [0, 4, 10, 4, 255, 255]);
            assert_eq!(buffer[6..], vec![7; length - 6]);
        }
    }
    // The least answer there is.
    assert_eq!(longest(&section(&[0]), &mut [7; 2]), Err(20));
    assert_eq!(longest(&section(&[0]), &mut [7; 3]), Ok(3));
}

/// Whether the slice is as M-101 words it: "Every cue and level has come, levels at
/// their largest, and every sequence is crossed. Where either's sides are equally
/// long the first is chosen", and else the longer, by this measure of the sides.
fn is_as_worded(stream: &Type, slice: &Slice, length: &impl Fn(&Type) -> usize) -> bool {
    match (stream, slice) {
        (Type::Empty, Slice::Empty) | (Type::Cue, Slice::CueCome) => true,
        (Type::Level, Slice::LevelCome(value)) => *value == 65_535,
        (Type::Sequence(s, t), Slice::Crossed(p, q))
        | (Type::Beside(s, t), Slice::Beside(p, q)) => {
            is_as_worded(s, p, length) && is_as_worded(t, q, length)
        }
        (Type::Either(s, t), Slice::FirstChosen(p)) => {
            is_as_worded(s, p, length) && length(s) >= length(t)
        }
        (Type::Either(s, t), Slice::SecondChosen(q)) => {
            is_as_worded(t, q, length) && length(s) < length(t)
        }
        _ => false,
    }
}

#[test]
fn every_slice_of_every_small_type() {
    let mut types = 0;
    for stream in [1, 3, 5, 7].into_iter().flat_map(every_type) {
        let answer = longest_file(&stream);
        assert_eq!(answer.len(), longest_by_trying(&stream), "{stream:?}");
        // What is written is a slice of the type, and complete.
        let complete = is_complete(&type_file(&stream), &answer);
        assert_eq!(complete, Ok(true), "{stream:?}");
        // Of all slices one alone is as worded, and that is the one written.
        let mut worded = every_slice(&stream);
        worded.retain(|slice| is_as_worded(&stream, slice, &longest_by_trying));
        assert_eq!(worded, [longest_slice(&stream)], "{stream:?}");
        assert_eq!(answer, slice_file(&worded[0]), "{stream:?}");
        types += 1;
    }
    // 1, 1, 2 and 5 shapes with 0 to 3 two-part nodes and a leaf more, each node
    // of three kinds.
    assert_eq!(types, 3 + 27 + 2 * 243 + 5 * 2_187);
}

/// The length of the longest slice file of a type, from the type's bytes alone,
/// last to first.
fn length_from_the_back(stream: &Type) -> usize {
    let mut lengths = Vec::new();
    for kind in type_file(stream)[2..].iter().rev() {
        let length = match kind {
            0 | 1 => 1,
            2 => 3,
            _ => {
                let parts: [usize; 2] = [(); 2].map(|()| lengths.pop().expect("a part"));
                let longer = parts[0].max(parts[1]);
                1 + if *kind == 5 {
                    longer
                } else {
                    parts[0] + parts[1]
                }
            }
        };
        lengths.push(length);
    }
    assert_eq!(lengths.len(), 1, "{stream:?}");
    2 + lengths[0]
}

/// What the operation owes for any type: the slice that M-101 words, in a buffer
/// of exactly its length but in none shorter, and no random slice longer.
fn expect_of_any(random: &mut Random, stream: &Type) -> Vec<u8> {
    let stream_file = type_file(stream);
    assert!(keeps_its_word(&[], |buffer| longest(&stream_file, buffer)));
    let answer = longest_file(stream);
    assert!(answer.len() <= 513);
    assert_eq!(answer.len(), length_from_the_back(stream), "{stream:?}");
    assert_eq!(is_complete(&stream_file, &answer), Ok(true), "{stream:?}");
    let slice = longest_slice(stream);
    assert_eq!(answer, slice_file(&slice), "{stream:?}");
    assert!(is_as_worded(stream, &slice, &length_from_the_back));
    for progress in [4, 6, 7, 8, 8, 8] {
        let other = random_slice(random, stream, progress);
        assert!(slice_file(&other).len() <= answer.len(), "{other:?}");
    }
    answer
}

#[test]
fn random_types() {
    let mut random = Random::new(0x5EED_000C);
    for _ in 0..2_000 {
        let nodes = 1 + random.below(255);
        let stream = random_type(&mut random, nodes);
        expect_of_any(&mut random, &stream);
    }
}

#[test]
fn random_types_of_255() {
    let mut random = Random::new(0x5EED_000D);
    // None, some, and all of the two-part kinds either.
    for eithers in [0, 1, 2, 4, 6, 8] {
        for _ in 0..100 {
            let stream = full_type(&mut random, 255, eithers);
            assert_eq!(stream.size(), 255);
            expect_of_any(&mut random, &stream);
        }
    }
}

#[test]
fn the_longest_there_is() {
    for kind in [3, 4] {
        let slice = with(vec![kind + 3; 127], &[4, 255, 255].repeat(128));
        assert_eq!(section(&slice).len(), 513);
        expect_longest(&[(&with(vec![kind; 127], &[2; 128]), &slice)]);
    }
    // In a row, and with one either, of whose sides the shorter is lost.
    let slice = with([6, 4, 255, 255].repeat(127), &[4, 255, 255]);
    expect_longest(&[(&with([3, 2].repeat(127), &[2]), &slice)]);
    let slice = with([10, 6, 4, 255, 255].to_vec(), &slice[8..]);
    assert_eq!(section(&slice).len(), 510);
    expect_longest(&[(&with(vec![5, 2], &with([3, 2].repeat(126), &[2])), &slice)]);
}

/// The type with 127 eithers, each the first part of that before it, and these
/// leaves, of which the last is repeated.
fn first_in_first(leaves: &[u8]) -> Vec<u8> {
    let last = leaves[leaves.len() - 1];
    with(with(vec![5; 127], leaves), &vec![last; 128 - leaves.len()])
}

/// The type with 127 eithers, each the second part of that before it, and these
/// leaves at the end, of which the first is repeated.
fn second_in_second(leaves: &[u8]) -> Vec<u8> {
    let repeated = [5, leaves[0]].repeat(128 - leaves.len());
    let (last, others) = leaves.split_last().expect("a leaf");
    let others = others.iter().flat_map(|leaf| [5, *leaf]).collect();
    with(repeated, &with(others, &[*last]))
}

#[test]
fn eithers_127_deep() {
    let nested = |outer: u8, depth: usize, inner: &[u8]| with(vec![outer; depth], inner);
    let high: &[u8] = &[4, 255, 255];
    let table: [(Vec<u8>, Vec<u8>); 13] = [
        // Equally long in the innermost alone.
        (first_in_first(&[1]), nested(9, 127, &[2])),
        (first_in_first(&[0, 1]), nested(9, 127, &[0])),
        (first_in_first(&[2]), nested(9, 127, high)),
        (second_in_second(&[1]), nested(10, 126, &[9, 2])),
        (second_in_second(&[0, 1]), nested(10, 126, &[9, 0])),
        (
            second_in_second(&[2]),
            nested(10, 126, &with(vec![9], high)),
        ),
        // Nowhere equally long.
        (
            first_in_first(&[1, 2]),
            nested(9, 126, &with(vec![10], high)),
        ),
        (first_in_first(&[2, 1]), nested(9, 127, high)),
        (second_in_second(&[1, 2]), nested(10, 127, high)),
        (
            second_in_second(&[1, 2, 1]),
            nested(10, 126, &with(vec![9], high)),
        ),
        // A level and two choices, 9 9 2 or 10 9 2, are equally long.
        (first_in_first(&[1, 1, 1, 2]), nested(9, 127, &[2])),
        (
            second_in_second(&[2, 1, 1, 1]),
            nested(10, 124, &with(vec![9], high)),
        ),
        // A level and one choice are not.
        (
            first_in_first(&[1, 1, 2]),
            nested(9, 125, &with(vec![10], high)),
        ),
    ];
    for (stream, slice) in &table {
        assert_eq!(stream.len(), 255);
        expect_longest(&[(stream, slice)]);
    }
}

#[test]
fn eithers_127_deep_with_random_leaves() {
    let mut random = Random::new(0x5EED_000E);
    for _ in 0..200 {
        let leaves = [(); 128].map(|()| full_type(&mut random, 1, 0));
        let firsts = leaves.iter().cloned().reduce(Type::either);
        let seconds = leaves.into_iter().rev();
        let seconds = seconds.reduce(|inner, leaf| Type::either(leaf, inner));
        for stream in [firsts, seconds].map(|nest| nest.expect("a leaf")) {
            assert_eq!(stream.size(), 255);
            expect_of_any(&mut random, &stream);
        }
    }
}

/// The type with the parts of every node exchanged, which is equally long.
fn mirrored(stream: &Type) -> Type {
    match stream {
        Type::Empty | Type::Cue | Type::Level => stream.clone(),
        Type::Sequence(s, t) => Type::sequence(mirrored(t), mirrored(s)),
        Type::Beside(s, t) => Type::beside(mirrored(t), mirrored(s)),
        Type::Either(s, t) => Type::either(mirrored(t), mirrored(s)),
    }
}

/// The mark with which an either of these sides is chosen.
fn mark(random: &mut Random, first: &Type, second: &Type) -> u8 {
    let stream = Type::either(first.clone(), second.clone());
    expect_of_any(random, &stream)[2]
}

#[test]
fn large_sides() {
    let mut random = Random::new(0x5EED_000F);
    for eithers in [0, 1, 2, 4, 6, 8] {
        for _ in 0..20 {
            let side = full_type(&mut random, 125, eithers);
            let other = mirrored(&side);
            assert_eq!(mark(&mut random, &side, &other), 9);
            assert_eq!(mark(&mut random, &other, &side), 9);
            // A mark more, with nothing more to come.
            let longer = Type::either(other, Type::Empty);
            assert_eq!(mark(&mut random, &side, &longer), 10);
            assert_eq!(mark(&mut random, &longer, &side), 9);
        }
    }
}
