//! Request M-103 against all slices of small types, behind all small patches and
//! random ones, and a count of the nodes 2 and 3 that wait and that open in a feed.

use second_interpreter::{
    check, every_slice, every_type, feed_node, left, output_type, patch_file, slice_file,
    type_file, Node, Slice, Totals, Type,
};

use crate::common::{answered, fed, patch, TOTALS_SECTION};
use crate::exhaustive::every_string;
use crate::generator::{random_node, random_slice, random_type, Random};
use crate::openings::{Does, OPENERS};

/// The slice kinds of which an empty slice is made, of whatever type.
const KINDS_OF_EMPTY: [u8; 6] = [0, 1, 3, 5, 7, 8];

/// What a node 2 or 3 does with a slice, from the bytes of the files: the slice
/// "differs from its type's empty slice" if any of its kinds is another than those of
/// empty slices, and "is complete" if it leaves a nullable type.
fn expected(stream: &[u8], slice: &[u8]) -> Does {
    let differs = slice[2..].iter().any(|kind| !KINDS_OF_EMPTY.contains(kind));
    let remainder = answered(|buffer| left(stream, slice, buffer)).expect("a slice of the type");
    let is_complete = remainder[2..].iter().all(|kind| [0, 4].contains(kind));
    if differs || is_complete {
        Does::Opens
    } else {
        Does::Waits
    }
}

/// How many nodes 2 and 3 were fed and waited, and how many opened.
#[derive(Debug, Default)]
pub struct Met {
    /// Those that stay.
    pub waiting: usize,
    /// Those that send.
    pub opening: usize,
}

impl Met {
    /// Adds the nodes 2 and 3 that one feed of a patch comes to.
    pub fn add(&mut self, node: &Node, input: &Type, slice: &Slice) {
        match node {
            Node::Cue | Node::Level(_) => {
                let does = expected(&type_file(input), &slice_file(slice));
                let left = feed_node(node, input, slice).expect("fits").left;
                assert_eq!(left == *node, does == Does::Waits, "{input:?} {slice:?}");
                self.count(does);
            }
            Node::Both(one, other) => {
                self.add(one, input, slice);
                self.add(other, input, slice);
            }
            Node::Chain(first, second) => {
                self.add(first, input, slice);
                let between = output_type(first, input).expect("well-typed");
                let sent = feed_node(first, input, slice).expect("fits").sent;
                self.add(second, &between, &sent);
            }
            Node::Then(first, second) | Node::Choose(first, second) => {
                self.add_to_parts(first, second, input, slice);
            }
            _ => {}
        }
    }

    /// Adds one that does this.
    fn count(&mut self, does: Does) {
        match does {
            Does::Waits => self.waiting += 1,
            Does::Opens => self.opening += 1,
        }
    }

    /// Adds those of the parts of then or choose to which the slice goes on.
    fn add_to_parts(&mut self, first: &Node, second: &Node, input: &Type, slice: &Slice) {
        let parts = input.sequence_parts().or(input.either_parts());
        let (s, t) = parts.expect("a sequence or an either");
        match slice {
            Slice::Uncrossed(p) | Slice::FirstChosen(p) => self.add(first, s, p),
            Slice::SecondChosen(q) => self.add(second, t, q),
            Slice::Crossed(b, q) => {
                self.add(first, s, b);
                self.add(second, t, q);
            }
            _ => {}
        }
    }
}

#[test]
fn every_slice_of_every_small_type() {
    let (mut types, mut waiting, mut complete, mut unarrived, mut arrived) = (0, 0, 0, 0, 0);
    for stream in [1, 3, 5].into_iter().flat_map(every_type) {
        types += 1;
        let stream_file = type_file(&stream);
        for slice in every_slice(&stream) {
            let slice = slice_file(&slice);
            let does = expected(&stream_file, &slice);
            let stream_left = answered(|buffer| left(&stream_file, &slice, buffer));
            let stream_left = stream_left.expect("a slice of the type");
            for opener in &OPENERS {
                let answer = fed(&patch(&stream_file[2..], opener.bytes), &slice);
                let (sent, left) = opener.answer(does);
                let expected = (sent.to_vec(), patch(&stream_left[2..], left));
                let answer = answer.map(|(sent, left)| (sent[2..].to_vec(), left));
                assert_eq!(answer, Ok(expected), "{stream:?} {slice:?}");
            }
            // A level's value is no kind, but its 4 is before it.
            let kinds = || slice[2..].iter();
            let counted = match does {
                Does::Waits => &mut waiting,
                Does::Opens if kinds().any(|kind| [2, 4].contains(kind)) => &mut arrived,
                Does::Opens if kinds().any(|kind| [6, 9, 10].contains(kind)) => &mut unarrived,
                Does::Opens => &mut complete,
            };
            *counted += 1;
        }
    }
    // Each type has one empty slice, complete for 0, 4 0 0, 4 4 0 0 0 and 4 0 4 0 0.
    assert_eq!((waiting, complete), (types - 4, 4));
    assert!(unarrived > 500 && arrived > 500, "{unarrived} {arrived}");
}

/// The node section of a patch file, without its count.
fn nodes_of(file: &[u8]) -> &[u8] {
    let stream = usize::from(u16::from_be_bytes([file[0], file[1]]));
    &file[stream + 4..file.len() - TOTALS_SECTION]
}

/// Chains nodes 2 and 3 behind a patch; expects of each slice that they do what the
/// slice that the patch sends asks of them.
fn expect_behind(met: &mut Met, input: &Type, nodes: &[u8], slice: &Slice) {
    let (input, slice) = (type_file(input), slice_file(slice));
    let before = patch(&input[2..], nodes);
    let between = answered(|buffer| check(&before, buffer)).expect("accepted");
    let (between_sent, before_left) = fed(&before, &slice).expect("a slice of the type");
    let does = expected(&between, &between_sent);
    met.count(does);
    for opener in &OPENERS {
        let (sent, left) = opener.answer(does);
        let start = patch(&input[2..], &[&[10], nodes, opener.bytes].concat());
        let chained = [&[10], nodes_of(&before_left), left].concat();
        let (answer, patch_left) = fed(&start, &slice).expect("a slice of the type");
        assert_eq!(answer[2..], *sent, "{start:?} {slice:?}");
        assert_eq!(nodes_of(&patch_left), chained, "{start:?} {slice:?}");
    }
}

#[test]
fn behind_every_small_patch() {
    let mut met = Met::default();
    for stream in [1, 3].into_iter().flat_map(every_type) {
        let slices = every_slice(&stream);
        for length in 1..=3 {
            every_string(length, 18, |nodes| {
                let start = patch(&type_file(&stream)[2..], nodes);
                if check(&start, &mut [0; 257]).is_err() {
                    return;
                }
                for slice in &slices {
                    expect_behind(&mut met, &stream, nodes, slice);
                }
            });
        }
    }
    assert!(met.waiting > 1_000 && met.opening > 1_000, "{met:?}");
}

#[test]
fn behind_random_patches() {
    let mut random = Random::new(0x5EED_0010);
    let mut met = Met::default();
    for _ in 0..3_000 {
        let size = 1 + random.below(40);
        let input = random_type(&mut random, size);
        let node = random_node(&mut random, &input, 30);
        let file = patch_file(&input, &node, Totals::default());
        for progress in [0, 1, 4] {
            let slice = random_slice(&mut random, &input, progress);
            expect_behind(&mut met, &input, nodes_of(&file), &slice);
        }
    }
    assert!(met.waiting > 1_000 && met.opening > 1_000, "{met:?}");
}
