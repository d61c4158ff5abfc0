//! Laws that hold of random types, slices and patches, and of damaged files.

use std::collections::HashMap;

use second_interpreter::{
    admit, check, empty_slice, feed, feed_node, join, join_slices, left, longest, output_type,
    patch_file, slice_file, type_file, what_slice_leaves, Fed, Node, Number, Slice, Totals, Type,
};

use crate::common::{answered, fed, fed_and_counted, is_complete, section, Given};
use crate::generator::{
    damaged, nearly_full_totals, random_node, random_slice, random_totals, random_type, Random,
};
use crate::waiting::Met;

/// A random type of a random size.
fn some_type(random: &mut Random) -> Type {
    let nodes = match random.below(8) {
        0 => 255,
        1 => 60,
        _ => 1 + random.below(20),
    };
    random_type(random, nodes)
}

/// A random type and a node that takes it.
fn some_patch(random: &mut Random) -> (Type, Node) {
    let input = some_type(random);
    let nodes = match random.below(4) {
        0 => 63,
        1 => 25,
        _ => 1 + random.below(9),
    };
    let node = random_node(random, &input, nodes);
    (input, node)
}

/// A random slice of a type, with random progress.
fn some_slice(random: &mut Random, stream: &Type) -> Slice {
    let progress = random.below(9);
    random_slice(random, stream, progress)
}

/// Random totals, now and then so large that a run reaches the limit.
fn some_totals(random: &mut Random) -> Totals {
    if random.once_in(3) {
        nearly_full_totals(random)
    } else {
        random_totals(random)
    }
}

/// What a slice leaves, where it is a slice of the type.
fn leaves(stream: &Type, slice: &Slice) -> Type {
    what_slice_leaves(stream, slice).expect("a slice of the type")
}

/// The join, where the second is a slice of what the first leaves.
fn joined(first: &Slice, second: &Slice) -> Slice {
    join_slices(first, second).expect("a slice of what is left")
}

#[test]
fn slices_leave_and_join() {
    let mut random = Random::new(0x5EED_0001);
    for _ in 0..20_000 {
        let stream = some_type(&mut random);
        let p = some_slice(&mut random, &stream);
        assert!(p.is_slice_of(&stream));
        let after_p = leaves(&stream, &p);
        assert!(after_p.size() <= stream.size());
        assert_eq!(p.is_complete(), after_p.is_nullable());
        let q = some_slice(&mut random, &after_p);
        let p_q = joined(&p, &q);
        assert!(p_q.is_slice_of(&stream));
        assert_eq!(p_q.is_complete(), q.is_complete());
        let after_q = leaves(&after_p, &q);
        assert_eq!(leaves(&stream, &p_q), after_q);
        let r = some_slice(&mut random, &after_q);
        assert_eq!(joined(&p_q, &r), joined(&p, &joined(&q, &r)));
    }
}

#[test]
fn empty_slices_bring_nothing() {
    let mut random = Random::new(0x5EED_0002);
    for _ in 0..20_000 {
        let stream = some_type(&mut random);
        let empty = empty_slice(&stream);
        assert!(empty.is_slice_of(&stream));
        assert_eq!(leaves(&stream, &empty), stream);
        assert_eq!(empty.is_complete(), stream.is_nullable());
        let p = some_slice(&mut random, &stream);
        assert_eq!(joined(&empty, &p), p);
        assert_eq!(joined(&p, &empty_slice(&leaves(&stream, &p))), p);
    }
}

#[test]
fn operations_on_slices_agree_with_the_trees() {
    let mut random = Random::new(0x5EED_0003);
    for _ in 0..10_000 {
        let stream = some_type(&mut random);
        let p = some_slice(&mut random, &stream);
        let after_p = leaves(&stream, &p);
        let q = some_slice(&mut random, &after_p);
        let (stream_file, p_file, q_file) = (type_file(&stream), slice_file(&p), slice_file(&q));
        assert!(stream_file.len() <= 257 && p_file.len() <= 513);
        assert_eq!(is_complete(&stream_file, &p_file), Ok(p.is_complete()));
        assert_eq!(
            answered(|buffer| left(&stream_file, &p_file, buffer)),
            Ok(type_file(&after_p))
        );
        assert_eq!(
            answered(|buffer| join(&stream_file, &p_file, &q_file, buffer)),
            Ok(slice_file(&joined(&p, &q)))
        );
    }
}

#[test]
fn one_feed_keeps_the_types() {
    let mut random = Random::new(0x5EED_0004);
    for _ in 0..10_000 {
        let (input, node) = some_patch(&mut random);
        let output = output_type(&node, &input).expect("well-typed");
        let totals = random_totals(&mut random);
        let file = patch_file(&input, &node, totals);
        assert!(file.len() <= 8_492);
        assert_eq!(
            answered(|buffer| check(&file, buffer)),
            Ok(type_file(&output))
        );
        let slice = some_slice(&mut random, &input);
        let Fed { sent, left } = feed_node(&node, &input, &slice).expect("fits");
        assert!(sent.is_slice_of(&output));
        assert!(!slice.is_complete() || sent.is_complete());
        let input_left = leaves(&input, &slice);
        assert_eq!(output_type(&left, &input_left), Ok(leaves(&output, &sent)));
        assert!(left.count() <= node.count());
        let (arrived, sent_count) = (slice.arrivals(), sent.arrivals());
        let totals_left = Totals {
            arrived: totals.arrived + arrived,
            sent: totals.sent + sent_count,
        };
        let expected = Given {
            output: slice_file(&sent),
            left: patch_file(&input_left, &left, totals_left),
            arrived,
            sent: sent_count,
        };
        assert_eq!(fed_and_counted(&file, &slice_file(&slice)), Ok(expected));
    }
}

#[test]
fn generated_patches_use_every_kind() {
    let mut random = Random::new(0x5EED_0005);
    let mut seen = [0; 18];
    let mut large_outputs = 0;
    for _ in 0..6_000 {
        let (input, node) = some_patch(&mut random);
        count_kinds(&node, &mut seen);
        let output = output_type(&node, &input).expect("well-typed");
        large_outputs += usize::from(output.size() > 100);
    }
    assert!(seen.iter().all(|count| *count > 300), "{seen:?}");
    assert!(large_outputs > 100, "{large_outputs}");
}

/// The kind byte of a node.
fn kind_of(node: &Node) -> u8 {
    patch_file(&Type::Empty, node, Totals::default())[5]
}

/// Adds each node of the tree under its kind.
fn count_kinds(node: &Node, seen: &mut [usize; 18]) {
    seen[usize::from(kind_of(node))] += 1;
    if let Node::Both(one, other)
    | Node::Then(one, other)
    | Node::Chain(one, other)
    | Node::Choose(one, other) = node
    {
        count_kinds(one, seen);
        count_kinds(other, seen);
    }
}

#[test]
fn generated_patches_have_openings_everywhere() {
    let mut random = Random::new(0x5EED_0012);
    let mut seen = HashMap::new();
    for _ in 0..20_000 {
        let (_, node) = some_patch(&mut random);
        *seen.entry(Place::Root(kind_of(&node))).or_insert(0) += 1;
        count_places(&node, &mut seen);
    }
    let mut count = |place: Place| *seen.entry(place).or_insert(0);
    for kind in [2, 3] {
        assert!(count(Place::Root(kind)) > 100);
        for parent in [4, 9, 10, 15] {
            assert!(count(Place::First(parent, kind)) > 100, "{parent} {kind}");
            assert!(count(Place::Second(parent, kind)) > 100, "{parent} {kind}");
        }
        for before in 0..18 {
            assert!(count(Place::Behind(before, kind)) > 20, "{before} {kind}");
        }
    }
}

/// Where a kind stands: at the root, as a part of another kind, or in a chain behind
/// another kind.
#[derive(PartialEq, Eq, Hash)]
enum Place {
    Root(u8),
    First(u8, u8),
    Second(u8, u8),
    Behind(u8, u8),
}

/// Adds the place of each part in the tree.
fn count_places(node: &Node, seen: &mut HashMap<Place, usize>) {
    let parent = kind_of(node);
    if let Node::Both(one, other)
    | Node::Then(one, other)
    | Node::Chain(one, other)
    | Node::Choose(one, other) = node
    {
        let (first, second) = (kind_of(one), kind_of(other));
        *seen.entry(Place::First(parent, first)).or_insert(0) += 1;
        *seen.entry(Place::Second(parent, second)).or_insert(0) += 1;
        if matches!(node, Node::Chain(..)) {
            *seen.entry(Place::Behind(first, second)).or_insert(0) += 1;
        }
        count_places(one, seen);
        count_places(other, seen);
    }
}

#[test]
fn choose_asks_for_one_output_type() {
    let mut random = Random::new(0x5EED_000B);
    let (mut same, mut different) = (0, 0);
    for _ in 0..10_000 {
        let (s, t) = (random_type(&mut random, 5), random_type(&mut random, 5));
        let first = random_node(&mut random, &s, 5);
        let second = random_node(&mut random, &t, 5);
        let outputs = (output_type(&first, &s), output_type(&second, &t));
        let (input, node) = (Type::either(s, t), Node::choose(first, second));
        let file = patch_file(&input, &node, random_totals(&mut random));
        let answer = answered(|buffer| check(&file, buffer));
        if outputs.0 == outputs.1 {
            assert_eq!(answer, outputs.0.map(|given| type_file(&given)));
            same += 1;
        } else {
            assert_eq!(answer, Err(30));
            different += 1;
        }
    }
    assert!(same > 500 && different > 500, "{same} {different}");
}

/// A run of demand 3: the files so far, the accepted slices and outputs, joined
/// through the operation, and the sums of what the accepted feeds counted.
pub struct Run {
    start: Vec<u8>,
    input: Vec<u8>,
    output: Vec<u8>,
    patch: Vec<u8>,
    taken: Option<(Vec<u8>, Vec<u8>)>,
    /// The cues and levels that came in the accepted slices.
    pub arrived: u32,
    /// Those that were sent for them.
    pub sent: u32,
}

impl Run {
    /// A run before its first feed.
    pub fn new(input: &Type, node: &Node, totals: Totals) -> Run {
        Run::of_files(type_file(input), patch_file(input, node, totals))
    }

    /// The same from the files of the input type and of the patch.
    pub fn of_files(input: Vec<u8>, start: Vec<u8>) -> Run {
        let output = answered(|buffer| check(&start, buffer)).expect("well-typed");
        Run {
            patch: start.clone(),
            start,
            input,
            output,
            taken: None,
            arrived: 0,
            sent: 0,
        }
    }

    /// A feed with buffers of these lengths; its number, 0 if accepted.
    pub fn feed(&mut self, slice: &[u8], output_length: usize, left_length: usize) -> Number {
        let mut sent = vec![0x55; output_length];
        let mut left = vec![0xAA; left_length];
        match feed(&self.patch, slice, &mut sent, &mut left) {
            Ok(answer) => {
                self.patch = left[..answer.patch].to_vec();
                self.take(slice, &sent[..answer.output]);
                self.arrived += answer.arrived;
                self.sent += answer.sent;
                0
            }
            Err(number) => {
                assert!(sent.iter().all(|byte| *byte == 0x55));
                assert!(left.iter().all(|byte| *byte == 0xAA));
                number
            }
        }
    }

    /// Joins an accepted slice and its output to those before.
    fn take(&mut self, slice: &[u8], sent: &[u8]) {
        let both = match &self.taken {
            None => (slice.to_vec(), sent.to_vec()),
            Some((slices, outputs)) => (
                answered(|buffer| join(&self.input, slices, slice, buffer)).expect("join"),
                answered(|buffer| join(&self.output, outputs, sent, buffer)).expect("join"),
            ),
        };
        self.taken = Some(both);
    }

    /// What demand 3 says of the run so far, and M-104 with it: "Joining two slices
    /// adds their counts."
    pub fn holds(&self) {
        let output_left = answered(|buffer| check(&self.patch, buffer)).expect("accepted");
        let Some((slices, outputs)) = &self.taken else {
            assert_eq!(self.patch, self.start);
            assert_eq!((self.arrived, self.sent), (0, 0));
            return;
        };
        let in_pieces = Given {
            output: outputs.clone(),
            left: self.patch.clone(),
            arrived: self.arrived,
            sent: self.sent,
        };
        assert_eq!(fed_and_counted(&self.start, slices), Ok(in_pieces));
        let input_left = answered(|buffer| left(&self.input, slices, buffer)).expect("left");
        assert!(self.patch.starts_with(&input_left));
        let expected = answered(|buffer| left(&self.output, outputs, buffer));
        assert_eq!(expected, Ok(output_left));
    }
}

#[test]
fn demand_3_on_random_runs() {
    let mut random = Random::new(0x5EED_0006);
    let (mut accepted, mut refused, mut full, mut met) = (0, 0, 0, Met::default());
    for _ in 0..3_000 {
        let (mut input, mut node) = some_patch(&mut random);
        let mut run = Run::new(&input, &node, some_totals(&mut random));
        let empties = random.below(4);
        for feeds in 0..empties + random.below(8) {
            // Progress 0 gives the empty slice.
            let progress = if feeds < empties { 0 } else { random.below(5) };
            let slice = random_slice(&mut random, &input, progress);
            let file = slice_file(&slice);
            let number = match random.below(6) {
                0 => {
                    let bad = damaged(&mut random, &file);
                    if admit(&type_file(&input), &bad).is_ok() {
                        continue;
                    }
                    run.feed(&bad, 600, 9_000)
                }
                1 => run.feed(&file, random.below(20), random.below(40)),
                _ => run.feed(&file, 513, 8_492),
            };
            if number == 0 {
                met.add(&node, &input, &slice);
                node = feed_node(&node, &input, &slice).expect("fits").left;
                input = leaves(&input, &slice);
                accepted += 1;
            } else {
                refused += 1;
                full += usize::from(number == 31);
            }
            run.holds();
        }
        run.holds();
    }
    assert!(accepted > 3_000 && refused > 1_000, "{accepted} {refused}");
    assert!(full > 300, "{full}");
    assert!(met.waiting > 1_000 && met.opening > 1_000, "{met:?}");
}

/// What an operation with one buffer owes whatever its inputs: a listed number
/// and an unaltered buffer, or bytes at the front and 20 one byte short of them.
pub fn keeps_its_word(
    numbers: &[Number],
    operation: impl Fn(&mut [u8]) -> Result<usize, Number>,
) -> bool {
    let mut buffer = vec![0xC3; 600];
    match operation(&mut buffer) {
        Ok(length) => {
            assert!(buffer[length..].iter().all(|byte| *byte == 0xC3));
            let mut exact = vec![0x3C; length];
            assert_eq!(operation(&mut exact), Ok(length));
            assert_eq!(exact, buffer[..length]);
            let mut short = vec![0x3C; length - 1];
            assert_eq!(operation(&mut short), Err(20));
            assert_eq!(short, vec![0x3C; length - 1]);
            true
        }
        Err(number) => {
            assert!(numbers.contains(&number), "{number}");
            assert!(buffer.iter().all(|byte| *byte == 0xC3));
            assert_eq!(operation(&mut []), Err(number));
            false
        }
    }
}

#[test]
fn damaged_files_are_judged() {
    let mut random = Random::new(0x5EED_0007);
    let mut accepted = [0; 5];
    for _ in 0..20_000 {
        let (input, node) = some_patch(&mut random);
        let slice = some_slice(&mut random, &input);
        let next = some_slice(&mut random, &leaves(&input, &slice));
        let mut files = [
            type_file(&input),
            slice_file(&slice),
            slice_file(&next),
            patch_file(&input, &node, random_totals(&mut random)),
        ];
        let hurt = random.below(files.len());
        files[hurt] = damaged(&mut random, &files[hurt]);
        let [stream, first, second, patch] = &files;
        let of_types = [1, 2, 3, 4];
        let of_slices = [1, 2, 3, 4, 11, 12, 13, 14];
        let results = [
            keeps_its_word(&[1, 2, 3, 4, 5, 6, 7, 30], |buffer| check(patch, buffer)),
            keeps_its_word(&of_slices, |buffer| left(stream, first, buffer)),
            keeps_its_word(&of_slices, |buffer| join(stream, first, second, buffer)),
            fed(patch, first).is_ok(),
            keeps_its_word(&of_types, |buffer| longest(stream, buffer)),
        ];
        for (count, result) in accepted.iter_mut().zip(results) {
            *count += usize::from(result);
        }
        assert_eq!(results[1], admit(stream, first).is_ok());
    }
    assert!(accepted.iter().all(|count| *count > 5_000), "{accepted:?}");
}

#[test]
fn bytes_from_nowhere_are_judged() {
    let mut random = Random::new(0x5EED_0008);
    let mut seen = [false; 32];
    for _ in 0..200_000 {
        let stream = small_bytes(&mut random, 7);
        let nodes = small_bytes(&mut random, 19);
        let slice = small_bytes(&mut random, 12);
        let patch = [stream.clone(), nodes, eight_bytes(&mut random)].concat();
        let number = fed(&patch, &slice).err().unwrap_or(0);
        seen[number as usize] = true;
        let checked = answered(|buffer| check(&patch, buffer)).err().unwrap_or(0);
        assert!(if number < 11 || number == 30 {
            checked == number
        } else {
            checked == 0
        });
        let admitted = admit(&stream, &slice).err().unwrap_or(0);
        assert!([0, 1, 2, 3, 11, 12, 13, 14].contains(&admitted));
        let of_type = (1..=3).contains(&admitted);
        let last = if of_type { admitted } else { 20 };
        assert_eq!(longest(&stream, &mut []), Err(last));
    }
    for number in [0, 1, 2, 3, 6, 7, 11, 12, 13, 14, 31] {
        assert!(seen[number], "{number} never came");
    }
}

/// A short section of small bytes, with a count that is mostly right.
fn small_bytes(random: &mut Random, kinds: usize) -> Vec<u8> {
    let length = random.below(6);
    let count = if random.once_in(12) {
        random.below(8)
    } else {
        length
    };
    let mut bytes = vec![0, count as u8];
    for _ in 0..length {
        bytes.push(random.below(kinds) as u8);
    }
    bytes
}

/// A section of totals, mostly of eight bytes, and of these mostly the largest or zero.
fn eight_bytes(random: &mut Random) -> Vec<u8> {
    let length = if random.once_in(12) {
        random.below(12)
    } else {
        8
    };
    let byte = [0, 255, random.byte()][random.below(3)];
    section(&vec![byte; length])
}
