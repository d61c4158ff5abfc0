//! Slices cut in two at every place there is: "Choices may be cut anywhere too"; and
//! of nodes 2 and 3, "Feeds are judged by this rule from here on, however they are
//! cut."

use std::collections::{HashMap, HashSet};

use second_interpreter::{
    check, empty_slice, every_slice, every_type, feed_node, join, join_slices, slice_file,
    type_file, what_slice_leaves, Node, Slice, Type,
};

use crate::common::{answered, fed, patch};
use crate::exhaustive::every_string;
use crate::generator::{random_node, random_slice, random_totals, random_type, Random};
use crate::openings::OPENERS;
use crate::properties::Run;
use crate::waiting::Met;

/// Two slices that join to a third.
pub type Cut = (Slice, Slice);

/// All pairs that join to the slice, the second a slice of what the first leaves.
pub fn cuts(whole: &Slice) -> Vec<Cut> {
    let not_come = |none: Slice| vec![(none, whole.clone()), (whole.clone(), Slice::Empty)];
    match whole {
        Slice::Empty | Slice::CueNotYet | Slice::LevelNotYet | Slice::NoneChosen => {
            vec![(whole.clone(), whole.clone())]
        }
        Slice::CueCome => not_come(Slice::CueNotYet),
        Slice::LevelCome(_) => not_come(Slice::LevelNotYet),
        Slice::Uncrossed(p) => {
            let both = |(p, q)| (Slice::uncrossed(p), Slice::uncrossed(q));
            cuts(p).into_iter().map(both).collect()
        }
        Slice::Crossed(b, r) => {
            let before = |(p, q)| (Slice::uncrossed(p), Slice::crossed(q, (**r).clone()));
            let after = |(p, q)| (Slice::crossed((**b).clone(), p), q);
            let before = cuts(b).into_iter().map(before);
            before.chain(cuts(r).into_iter().map(after)).collect()
        }
        Slice::Beside(left, right) => cuts_of_sides(left, right),
        Slice::FirstChosen(p) => cuts_of_choice(whole, p, Slice::first_chosen),
        Slice::SecondChosen(p) => cuts_of_choice(whole, p, Slice::second_chosen),
    }
}

/// The cuts of a 7: those of its sides, in every pairing.
fn cuts_of_sides(left: &Slice, right: &Slice) -> Vec<Cut> {
    let mut pairs = Vec::new();
    for (p, q) in cuts(left) {
        for (p_right, q_right) in cuts(right) {
            let first = Slice::beside(p.clone(), p_right);
            pairs.push((first, Slice::beside(q.clone(), q_right)));
        }
    }
    pairs
}

/// The cuts of a choice: before the mark, or after it.
fn cuts_of_choice(whole: &Slice, inside: &Slice, marked: fn(Slice) -> Slice) -> Vec<Cut> {
    let after = cuts(inside).into_iter().map(|(p, q)| (marked(p), q));
    let before = (Slice::NoneChosen, whole.clone());
    after.chain([before]).collect()
}

/// A cut as two files, which can be put in a set.
fn files((first, second): &Cut) -> (Vec<u8>, Vec<u8>) {
    (slice_file(first), slice_file(second))
}

#[test]
fn exactly_the_cuts_join_to_a_slice() {
    for stream in [1, 3, 5].into_iter().flat_map(every_type) {
        let mut found: HashMap<Vec<u8>, HashSet<_>> = HashMap::new();
        for p in every_slice(&stream) {
            let remainder = what_slice_leaves(&stream, &p).expect("a slice of the type");
            for q in every_slice(&remainder) {
                let whole = join_slices(&p, &q).expect("a slice of what is left");
                let pairs = found.entry(slice_file(&whole)).or_default();
                pairs.insert(files(&(p.clone(), q)));
            }
        }
        let wholes = every_slice(&stream);
        assert_eq!(found.len(), wholes.len(), "{stream:?}");
        for whole in wholes {
            let expected: HashSet<_> = cuts(&whole).iter().map(files).collect();
            assert_eq!(found[&slice_file(&whole)], expected, "{stream:?} {whole:?}");
        }
    }
}

/// What the pieces of many cuts came to.
#[derive(Debug, Default)]
struct Pieces {
    cuts: usize,
    /// Nodes 2 and 3 in the first pieces, and in the first pieces that are empty.
    first: Met,
    empty: Met,
    /// Those in the second pieces.
    second: Met,
}

/// Feeds the whole at once and in every two pieces, of which one first is empty.
fn expect_every_cut(input: &Type, node: &Node, whole: &Slice, pieces: &mut Pieces) {
    let pairs = cuts(whole);
    let at_once = feed_node(node, input, whole).expect("fits");
    assert!(pairs.contains(&(empty_slice(input), whole.clone())));
    for (p, q) in &pairs {
        let between = what_slice_leaves(input, p).expect("a slice of the type");
        let first = feed_node(node, input, p).expect("fits");
        pieces.first.add(node, input, p);
        pieces.second.add(&first.left, &between, q);
        if *p == empty_slice(input) {
            pieces.empty.add(node, input, p);
        }
        let second = feed_node(&first.left, &between, q).expect("fits");
        let sent = join_slices(&first.sent, &second.sent).expect("joins");
        assert_eq!(sent, at_once.sent, "{input:?} {node:?} {p:?} {q:?}");
        assert_eq!(second.left, at_once.left, "{input:?} {node:?} {p:?} {q:?}");
    }
    pieces.cuts += pairs.len();
}

/// Whether a choice is made or taken in the patch.
fn has_choices(node: &Node) -> bool {
    match node {
        Node::Choose(..) | Node::MarkFirst(_) | Node::MarkSecond(_) => true,
        Node::Both(one, other) | Node::Then(one, other) | Node::Chain(one, other) => {
            has_choices(one) || has_choices(other)
        }
        _ => false,
    }
}

/// Whether a node 2 or 3 is in the patch.
fn has_openings(node: &Node) -> bool {
    match node {
        Node::Cue | Node::Level(_) => true,
        Node::Both(one, other)
        | Node::Then(one, other)
        | Node::Chain(one, other)
        | Node::Choose(one, other) => has_openings(one) || has_openings(other),
        _ => false,
    }
}

/// Cuts slices of so many random patches that are wanted.
fn expect_random_cuts(seed: u64, patches: usize, wanted: fn(&Node) -> bool) -> Pieces {
    let mut random = Random::new(seed);
    let mut pieces = Pieces::default();
    let mut cut = 0;
    while cut < patches {
        let input = random_type(&mut random, 11);
        let node = random_node(&mut random, &input, 11);
        if !wanted(&node) {
            continue;
        }
        cut += 1;
        for progress in [3, 6, 8] {
            let whole = random_slice(&mut random, &input, progress);
            expect_every_cut(&input, &node, &whole, &mut pieces);
        }
    }
    pieces
}

#[test]
fn random_patches_with_choices_cut_everywhere() {
    let pieces = expect_random_cuts(0x5EED_0009, 3_000, has_choices);
    assert!(pieces.cuts > 20_000, "{pieces:?}");
}

#[test]
fn random_patches_with_openings_cut_everywhere() {
    let pieces = expect_random_cuts(0x5EED_0011, 3_000, has_openings);
    assert!(pieces.cuts > 20_000, "{pieces:?}");
    for met in [&pieces.first, &pieces.empty, &pieces.second] {
        assert!(met.waiting > 1_000 && met.opening > 1_000, "{pieces:?}");
    }
}

#[test]
fn cut_patches_keep_demand_3_in_files() {
    let mut random = Random::new(0x5EED_000A);
    let mut patches = 0;
    while patches < 300 {
        let input = random_type(&mut random, 9);
        let node = random_node(&mut random, &input, 9);
        if !has_choices(&node) && !has_openings(&node) {
            continue;
        }
        patches += 1;
        let whole = random_slice(&mut random, &input, 6);
        let empty = slice_file(&empty_slice(&input));
        for (p, q) in cuts(&whole) {
            let mut run = Run::new(&input, &node, random_totals(&mut random));
            for _ in 0..random.below(3) {
                assert_eq!(run.feed(&empty, 513, 8_492), 0);
            }
            run.holds();
            assert_eq!(run.feed(&slice_file(&p), 513, 8_492), 0);
            run.holds();
            assert_eq!(run.feed(&slice_file(&q), 513, 8_492), 0);
            run.holds();
        }
    }
}

/// Feeds files at once and in every two pieces.
fn expect_every_cut_of_files(start: &[u8], whole: &Slice) {
    let output = answered(|buffer| check(start, buffer)).expect("accepted");
    let at_once = fed(start, &slice_file(whole)).expect("a slice of the type");
    for (p, q) in cuts(whole) {
        let (first, between) = fed(start, &slice_file(&p)).expect("a slice of the type");
        let (second, left) = fed(&between, &slice_file(&q)).expect("a slice of what is left");
        let sent = answered(|buffer| join(&output, &first, &second, buffer)).expect("joins");
        assert_eq!((sent, left), at_once, "{start:?} {p:?} {q:?}");
    }
}

/// Feeds all slices of the type in every two pieces, if the patch is accepted.
fn accepted_and_cut(stream: &Type, nodes: &[u8]) -> bool {
    let start = patch(&type_file(stream)[2..], nodes);
    if check(&start, &mut [0; 257]).is_err() {
        return false;
    }
    for whole in every_slice(stream) {
        expect_every_cut_of_files(&start, &whole);
    }
    true
}

#[test]
fn every_small_patch_cut_everywhere() {
    let (mut accepted, mut choosing) = (0, 0);
    for stream in [1, 3].into_iter().flat_map(every_type) {
        for length in 1..=3 {
            every_string(length, 18, |nodes| {
                if accepted_and_cut(&stream, nodes) {
                    accepted += 1;
                    choosing += usize::from(nodes[0] == 15);
                }
            });
        }
    }
    assert!(accepted > 1_000, "{accepted}");
    // Both pass or both front where the parts are equal (3 and 3), both cue (9),
    // pass and cue where the passed part is a cue (3 and 3).
    assert_eq!(choosing, 21);
}

#[test]
fn every_small_choose_cut_everywhere() {
    let is_either = |stream: &Type| stream.either_parts().is_some();
    let mut accepted = 0;
    for stream in every_type(3).into_iter().filter(is_either) {
        for length in 3..=4 {
            every_string(length, 18, |parts| {
                let nodes = [&[15], parts].concat();
                accepted += usize::from(accepted_and_cut(&stream, &nodes));
            });
        }
    }
    assert!(accepted > 1_000, "{accepted}");
}

#[test]
fn every_small_opening_cut_everywhere() {
    // Nodes 2 and 3 as either part of each kind with parts, beside all small nodes.
    for parent in [4, 9, 10, 15] {
        for opener in &OPENERS[..2] {
            let (mut as_first, mut as_second) = (0, 0);
            for stream in [1, 3].into_iter().flat_map(every_type) {
                for length in 1..=2 {
                    every_string(length, 18, |other| {
                        let first = [&[parent], opener.bytes, other].concat();
                        let second = [&[parent], other, opener.bytes].concat();
                        as_first += usize::from(accepted_and_cut(&stream, &first));
                        as_second += usize::from(accepted_and_cut(&stream, &second));
                    });
                }
            }
            assert!(
                as_first > 2 && as_second > 2,
                "{parent} {as_first} {as_second}"
            );
        }
    }
}
