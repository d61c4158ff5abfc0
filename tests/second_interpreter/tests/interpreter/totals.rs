//! Request M-105: the third section of a patch file, and the totals that travel in it.
//! Every other test that feeds through `common` holds the totals against the counts,
//! and every run in `properties` against feeding as one.

use second_interpreter::{
    check, every_slice, every_type, feed, patch_file, run_program, slice_file, totals_of,
    type_file, FedFiles, Node, Number, Slice, Totals, Type,
};

use crate::common::{
    answered, bytes_of, fed_and_counted, patch, patch_with, section, without_totals,
};
use crate::cuts::cuts;
use crate::exhaustive::every_string;
use crate::generator::{nearly_full_totals, random_node, random_slice, random_type, Random};
use crate::properties::Run;
use crate::refusals::{patch_number, with};

/// The largest total.
const FULL: u32 = 4_294_967_295;

/// Totals of these two numbers.
fn totals(arrived: u32, sent: u32) -> Totals {
    Totals { arrived, sent }
}

/// A count and then bytes, whether as many or not.
fn counted(count: u16, contents: &[u8]) -> Vec<u8> {
    with(count.to_be_bytes().to_vec(), contents)
}

/// A patch of a cue and pass, with these bytes behind its node section.
fn followed_by(third: &[u8]) -> Vec<u8> {
    with(without_totals(&[1], &[0]), third)
}

#[test]
fn a_missing_section_is_cut_short() {
    assert_eq!(patch_number(&followed_by(&[])), 1);
    assert_eq!(patch_number(&followed_by(&[0])), 1);
    assert_eq!(patch_number(&followed_by(&[9])), 1);
    assert_eq!(patch_number(&followed_by(&[0, 8])), 1);
    assert_eq!(patch_number(&followed_by(&[0, 0])), 1);
    assert_eq!(patch_number(&followed_by(&[0, 9])), 1);
}

#[test]
fn whole_sections_of_every_length() {
    for length in (0..300).chain([4_096, 65_535]) {
        let file = followed_by(&section(&vec![7; length]));
        if length == 8 {
            let checked = answered(|buffer| check(&file, buffer));
            assert_eq!(checked, Ok(section(&[1])));
        } else {
            let expected = if length < 8 { 1 } else { 3 };
            assert_eq!(patch_number(&file), expected, "{length}");
        }
    }
}

#[test]
fn counts_that_disagree_with_what_is_there() {
    // Not whole: 1, whatever the count.
    assert_eq!(patch_number(&followed_by(&counted(8, &[0; 7]))), 1);
    assert_eq!(patch_number(&followed_by(&counted(9, &[0; 8]))), 1);
    assert_eq!(patch_number(&followed_by(&counted(7, &[0; 6]))), 1);
    assert_eq!(patch_number(&followed_by(&counted(65_535, &[0; 8]))), 1);
    // Whole but shorter: 1, although bytes follow.
    assert_eq!(patch_number(&followed_by(&counted(7, &[0; 8]))), 1);
    assert_eq!(patch_number(&followed_by(&counted(0, &[0; 8]))), 1);
    // Of eight bytes, with more behind it.
    assert_eq!(patch_number(&followed_by(&counted(8, &[0; 9]))), 3);
    assert_eq!(patch_number(&followed_by(&counted(8, &[0; 18]))), 3);
    assert_eq!(patch_number(&followed_by(&counted(9, &[0; 10]))), 3);
    // The count has its high byte first.
    assert_eq!(patch_number(&followed_by(&with(vec![8, 0], &[0; 8]))), 1);
    assert_eq!(patch_number(&followed_by(&counted(2_048, &[0; 2_048]))), 3);
}

#[test]
fn every_count_with_every_number_of_bytes() {
    for count in 0..20 {
        for there in 0..24 {
            let file = followed_by(&counted(count, &vec![255; there]));
            let count = usize::from(count);
            let expected = match count {
                _ if count > there => Some(1),
                0..=7 => Some(1),
                8 if there == 8 => None,
                _ => Some(3),
            };
            let number = answered(|buffer| check(&file, buffer)).err();
            assert_eq!(number, expected, "{count} {there}");
            assert_eq!(totals_of(&file).is_some(), expected.is_none());
        }
    }
}

/// The bytes behind the nodes with which a file is refused, and the number.
fn bad_thirds() -> [(Vec<u8>, Number); 6] {
    [
        (vec![], 1),
        (section(&[0; 7]), 1),
        (counted(8, &[0; 7]), 1),
        (counted(9, &[0; 8]), 1),
        (section(&[0; 9]), 3),
        (counted(8, &[0; 9]), 3),
    ]
}

#[test]
fn the_earlier_sections_come_first() {
    let large = [3; 255];
    let earlier: [(&[u8], &[u8], Number); 9] = [
        (&[], &[0], 1),
        (&[9], &[0], 2),
        (&[1, 1], &[0], 3),
        (&large, &[0], 4),
        (&[1], &[10, 0], 1),
        (&[1], &[18], 2),
        (&[1], &[0, 0], 3),
        (&[1], &[10; 63], 5),
        (&[1], &[1, 6], 2),
    ];
    for (stream, nodes, number) in earlier {
        for (third, _) in bad_thirds() {
            let file = with(without_totals(stream, nodes), &third);
            assert_eq!(patch_number(&file), number, "{file:?}");
        }
    }
    // The node section does not reach into the third.
    let cut = [section(&[1]), section(&[10, 0]), section(&[0; 8])].concat();
    assert_eq!(patch_number(&cut), 1);
}

#[test]
fn the_second_pass_comes_later() {
    let large = with(vec![4; 127], &[1; 128]);
    let later: [(&[u8], &[u8], Number); 4] = [
        (&[1], &[5], 7),
        (&[1], &[1, 1], 6),
        (&large, &[14], 4),
        (&[5, 1, 2], &[15, 0, 0], 30),
    ];
    for (stream, nodes, number) in later {
        assert_eq!(patch_number(&patch(stream, nodes)), number);
        // Full totals are no fault of a patch.
        let full = patch_with(stream, nodes, totals(FULL, FULL));
        assert_eq!(patch_number(&full), number);
        for (third, number) in bad_thirds() {
            let file = with(without_totals(stream, nodes), &third);
            assert_eq!(patch_number(&file), number, "{file:?}");
        }
    }
}

#[test]
fn high_byte_first() {
    let bytes = [1, 2, 3, 4, 250, 251, 252, 253];
    let read = totals(0x0102_0304, 0xFAFB_FCFD);
    let file = followed_by(&section(&bytes));
    assert_eq!(totals_of(&file), Some(read));
    assert_eq!(patch_file(&Type::Cue, &Node::Pass, read), file);
    assert_eq!(bytes_of(read), bytes);
    for (place, arrived) in [(0, 1 << 24), (1, 1 << 16), (2, 256), (3, 1)] {
        let mut bytes = [0; 8];
        bytes[place] = 1;
        let file = followed_by(&section(&bytes));
        assert_eq!(totals_of(&file), Some(totals(arrived, 0)));
        bytes.rotate_right(4);
        let file = followed_by(&section(&bytes));
        assert_eq!(totals_of(&file), Some(totals(0, arrived)));
    }
    assert_eq!(Totals::default(), totals(0, 0));
}

#[test]
fn totals_of_accepted_files_alone() {
    assert_eq!(totals_of(&patch(&[1], &[0])), Some(totals(0, 0)));
    assert_eq!(totals_of(&[]), None);
    for (third, _) in bad_thirds() {
        assert_eq!(totals_of(&followed_by(&third)), None);
    }
    // Refused in the second pass, though its third section is whole.
    assert_eq!(totals_of(&patch(&[1], &[5])), None);
}

#[test]
fn check_takes_any_totals() {
    let some = [0, 1, 255, 256, 65_536, 1 << 31, FULL - 1, FULL];
    for arrived in some {
        for sent in some {
            let file = patch_with(&[4, 1, 2], &[4, 6, 5], totals(arrived, sent));
            let checked = answered(|buffer| check(&file, buffer));
            assert_eq!(checked, Ok(section(&[4, 2, 1])));
        }
    }
}

/// A feed: type, nodes, totals before, slice; the totals left, or none for a 31.
type Feed<'a> = (&'a [u8], &'a [u8], [u32; 2], &'a [u8], Option<[u32; 2]>);

/// Expects each feed of a table.
fn expect_feeds(table: &[Feed]) {
    for (stream, nodes, [arrived, sent], slice, left) in table {
        let start = patch_with(stream, nodes, totals(*arrived, *sent));
        let given = fed_and_counted(&start, &section(slice));
        let given = given.map(|given| totals_of(&given.left));
        let left = left.map(|[arrived, sent]| Some(totals(arrived, sent)));
        assert_eq!(given, left.ok_or(31), "{start:?} {slice:?}");
    }
}

#[test]
fn each_count_is_added_to_its_own_total() {
    let sides: &[u8] = &[4, 1, 2];
    let none_come: &[u8] = &[7, 1, 3];
    let all_come: &[u8] = &[7, 2, 4, 2, 4];
    expect_feeds(&[
        (&[1], &[0], [0, 0], &[1], Some([0, 0])),
        (&[1], &[0], [0, 0], &[2], Some([1, 1])),
        (&[1], &[0], [5, 9], &[2], Some([6, 10])),
        (&[1], &[4, 0, 0], [5, 9], &[2], Some([6, 11])),
        (&[1], &[1, 0], [5, 9], &[2], Some([6, 9])),
        (&[0], &[2], [5, 9], &[0], Some([5, 10])),
        (sides, &[0], [5, 9], none_come, Some([5, 9])),
        (sides, &[0], [5, 9], all_come, Some([7, 11])),
        (sides, &[5], [5, 9], all_come, Some([7, 10])),
        // What goes from one node of a chain to the next is not sent.
        (&[1], &[10, 4, 0, 0, 5], [5, 9], &[2], Some([6, 10])),
        // The sum goes on into the next byte.
        (&[1], &[0], [255, 65_535], &[2], Some([256, 65_536])),
        (&[1], &[0], [0xFF_FFFF, 0], &[2], Some([0x0100_0000, 1])),
    ]);
}

#[test]
fn bytes_of_the_patch_left() {
    let start = patch_with(&[1], &[4, 0, 0], totals(0x0102_03FF, 0xFAFB_FEFF));
    let given = fed_and_counted(&start, &section(&[2])).expect("a slice of the type");
    let third = [0, 8, 1, 2, 4, 0, 0xFA, 0xFB, 0xFF, 1];
    let left = with(without_totals(&[0], &[4, 0, 0]), &third);
    assert_eq!(given.left, left);
    // The answer's counts are those of this one feed.
    assert_eq!((given.arrived, given.sent), (1, 2));
}

#[test]
fn exactly_the_limit_and_one_more() {
    let sides: &[u8] = &[4, 1, 2];
    let all_come: &[u8] = &[7, 2, 4, 2, 4];
    expect_feeds(&[
        (&[1], &[0], [FULL - 1, FULL - 1], &[2], Some([FULL, FULL])),
        (&[1], &[0], [FULL, FULL], &[2], None),
        // Either total alone.
        (&[1], &[0], [FULL - 1, 0], &[2], Some([FULL, 1])),
        (&[1], &[0], [FULL, 0], &[2], None),
        (&[1], &[0], [0, FULL - 1], &[2], Some([1, FULL])),
        (&[1], &[0], [0, FULL], &[2], None),
        // Counts of two.
        (sides, &[0], [FULL - 2, 0], all_come, Some([FULL, 2])),
        (sides, &[0], [FULL - 1, 0], all_come, None),
        (sides, &[0], [FULL, 0], all_come, None),
        (&[1], &[4, 0, 0], [0, FULL - 2], &[2], Some([1, FULL])),
        (&[1], &[4, 0, 0], [0, FULL - 1], &[2], None),
        // Half the limit is no limit.
        (
            &[1],
            &[0],
            [1 << 31, (1 << 31) - 1],
            &[2],
            Some([(1 << 31) + 1, 1 << 31]),
        ),
    ]);
}

#[test]
fn the_most_one_feed_can_add() {
    let stream = with(vec![4; 127], &[2; 128]);
    let slice = with(vec![7; 127], &[4, 4, 2].repeat(128));
    expect_feeds(&[
        (
            &stream,
            &[0],
            [FULL - 128, FULL - 128],
            &slice,
            Some([FULL, FULL]),
        ),
        (&stream, &[0], [FULL - 127, FULL - 128], &slice, None),
        (&stream, &[0], [FULL - 128, FULL - 127], &slice, None),
        (
            &stream,
            &[2],
            [FULL - 128, FULL - 1],
            &slice,
            Some([FULL, FULL]),
        ),
        (&stream, &[2], [FULL - 128, FULL], &slice, None),
    ]);
}

#[test]
fn full_totals_to_which_nothing_is_added() {
    expect_feeds(&[
        (&[1], &[0], [FULL, FULL], &[1], Some([FULL, FULL])),
        (&[0], &[0], [FULL, FULL], &[0], Some([FULL, FULL])),
        (
            &[3, 0, 1],
            &[0],
            [FULL, FULL],
            &[6, 0, 1],
            Some([FULL, FULL]),
        ),
        (&[5, 1, 2], &[0], [FULL, FULL], &[9, 1], Some([FULL, FULL])),
        // A cue that waits sends none.
        (&[1], &[2], [FULL, FULL], &[1], Some([FULL, FULL])),
        // Only one of the totals is full, and only the other grows.
        (&[1], &[1, 0], [7, FULL], &[2], Some([8, FULL])),
        (&[1], &[1, 0], [FULL, 7], &[2], None),
        (&[0], &[2], [FULL, 7], &[0], Some([FULL, 8])),
        (&[0], &[2], [7, FULL], &[0], None),
        // What is sent inside the patch passes no limit.
        (&[1], &[10, 0, 1, 0], [7, FULL], &[2], Some([8, FULL])),
    ]);
}

#[test]
fn after_the_refusals_of_the_slice() {
    let sides: &[u8] = &[4, 1, 2];
    let start = patch_with(sides, &[0], totals(FULL, FULL));
    // A cue has come before each fault.
    for (slice, number) in [
        (&[7, 2][..], 11),
        (&[7, 2, 4, 2], 11),
        (&[7, 2, 11], 12),
        (&[7, 2, 3, 2], 13),
        (&[7, 2, 2], 14),
        (&[7, 2, 3], 31),
    ] {
        let slice = section(slice);
        assert_eq!(fed_and_counted(&start, &slice), Err(number), "{slice:?}");
        assert_eq!(feed(&start, &slice, &mut [], &mut []), Err(number));
    }
    let behind = with(section(&[7, 2, 3]), &[0]);
    assert_eq!(feed(&start, &behind, &mut [], &mut []), Err(13));
    assert_eq!(feed(&start, &[0], &mut [], &mut []), Err(11));
}

#[test]
fn before_the_buffers() {
    for (arrived, sent) in [(FULL, FULL), (FULL, 0), (0, FULL)] {
        let start = patch_with(&[1], &[0], totals(arrived, sent));
        // The answers would have 3 and 16 bytes.
        for (output_length, left_length) in [(0, 0), (2, 16), (3, 15), (3, 16), (600, 9_000)] {
            let (mut output, mut left) = (vec![7; output_length], vec![9; left_length]);
            let answer = feed(&start, &section(&[2]), &mut output, &mut left);
            assert_eq!(answer, Err(31));
            assert!(output.iter().all(|byte| *byte == 7));
            assert!(left.iter().all(|byte| *byte == 9));
        }
    }
    // With room in the totals it is 20, and with room in the buffers accepted.
    let start = patch_with(&[1], &[0], totals(FULL - 1, FULL - 1));
    let slice = section(&[2]);
    assert_eq!(feed(&start, &slice, &mut [0; 2], &mut [0; 16]), Err(20));
    assert_eq!(feed(&start, &slice, &mut [0; 3], &mut [0; 15]), Err(20));
    let accepted = FedFiles {
        output: 3,
        patch: 16,
        arrived: 1,
        sent: 1,
    };
    let answer = feed(&start, &slice, &mut [0; 3], &mut [0; 16]);
    assert_eq!(answer, Ok(accepted));
}

#[test]
fn a_refused_feed_of_a_run_leaves_the_totals() {
    let stream: &[u8] = &[4, 1, 2];
    let start = patch_with(stream, &[4, 0, 0], totals(0, FULL - 3));
    let mut run = Run::of_files(section(stream), start);
    // Both come would send four, each of them two.
    assert_eq!(run.feed(&section(&[7, 2, 4, 0, 0]), 513, 8_492), 31);
    run.holds();
    assert_eq!(run.feed(&section(&[7, 2, 3]), 513, 8_492), 0);
    run.holds();
    assert_eq!(run.feed(&section(&[7, 0, 4, 0, 0]), 513, 8_492), 31);
    assert_eq!(run.feed(&section(&[7, 0, 3]), 0, 0), 20);
    assert_eq!(run.feed(&section(&[7, 0, 3]), 513, 8_492), 0);
    run.holds();
    assert_eq!((run.arrived, run.sent), (1, 2));
}

/// The patch left by slices fed in turn, or the number of the first that is refused.
fn left_after(start: &[u8], slices: &[&Slice]) -> Result<Vec<u8>, Number> {
    let mut file = start.to_vec();
    for slice in slices {
        file = fed_and_counted(&file, &slice_file(slice))?.left;
    }
    Ok(file)
}

/// What became of many slices fed at once and in two pieces.
#[derive(Debug, Default)]
struct Split {
    /// Cuts of slices that are accepted whole.
    accepted: usize,
    /// Cuts of slices that are refused with 31, at the first piece or at the second.
    refused_at_first: usize,
    refused_at_second: usize,
}

impl Split {
    /// Feeds a slice at once and in every two pieces. If it is accepted whole, so is each
    /// piece, and the patch left is the same; if the whole gives 31, so does a piece.
    fn expect_every_cut(&mut self, start: &[u8], whole: &Slice) {
        let at_once = left_after(start, &[whole]);
        for (p, q) in cuts(whole) {
            let in_pieces = left_after(start, &[&p, &q]);
            assert_eq!(in_pieces, at_once, "{start:?} {p:?} {q:?}");
            let met = match left_after(start, &[&p]) {
                _ if in_pieces.is_ok() => &mut self.accepted,
                Ok(_) => &mut self.refused_at_second,
                Err(_) => &mut self.refused_at_first,
            };
            *met += 1;
        }
    }

    /// Expects that each was met so often.
    fn expect_at_least(&self, times: usize) {
        let met = [self.accepted, self.refused_at_first, self.refused_at_second];
        assert!(met.iter().all(|count| *count >= times), "{self:?}");
    }
}

#[test]
fn every_small_patch_split_near_the_limit() {
    let mut split = Split::default();
    for stream in [1, 3].into_iter().flat_map(every_type) {
        let slices = every_slice(&stream);
        for length in 1..=2 {
            every_string(length, 18, |nodes| {
                let stream = type_file(&stream);
                for (arrived, sent) in [(FULL - 1, 0), (0, FULL - 1), (FULL - 1, FULL - 2)] {
                    let start = patch_with(&stream[2..], nodes, totals(arrived, sent));
                    if check(&start, &mut [0; 257]).is_ok() {
                        for whole in &slices {
                            split.expect_every_cut(&start, whole);
                        }
                    }
                }
            });
        }
    }
    split.expect_at_least(100);
}

#[test]
fn random_patches_split_near_the_limit() {
    let mut random = Random::new(0x5EED_0017);
    let mut split = Split::default();
    for _ in 0..2_000 {
        let input = random_type(&mut random, 11);
        let node = random_node(&mut random, &input, 11);
        let start = patch_file(&input, &node, nearly_full_totals(&mut random));
        for progress in [3, 6, 8] {
            let whole = random_slice(&mut random, &input, progress);
            split.expect_every_cut(&start, &whole);
        }
    }
    split.expect_at_least(1_000);
}

/// What the program writes for files, each after its two-byte length.
fn lines(files: &[Vec<u8>]) -> String {
    let input: Vec<u8> = files.iter().flat_map(|file| section(file)).collect();
    let mut output = Vec::new();
    run_program(&mut input.as_slice(), &mut output).expect("memory does not fail");
    String::from_utf8(output).expect("lines are text")
}

#[test]
fn the_program_reads_three_sections() {
    assert_eq!(lines(&[without_totals(&[1], &[0]), section(&[2])]), "1\n");
    for (third, number) in bad_thirds() {
        let expected = format!("{number}\n");
        assert_eq!(lines(&[followed_by(&third), section(&[2])]), expected);
    }
    assert_eq!(lines(&[patch(&[1], &[0]), section(&[2])]), "0 02 00\n");
}

#[test]
fn the_program_prints_no_totals() {
    let slices = [section(&[1]), section(&[2]), section(&[0])];
    for (arrived, sent) in [(0, 0), (7, 0x0102_0304), (FULL - 1, FULL - 2)] {
        let start = patch_with(&[1], &[10, 14, 9, 2, 0], totals(arrived, sent));
        let files = [&[start], &slices[..]].concat();
        assert_eq!(lines(&files), "0 060201 01\n0 02 00\n0 00 00\n");
    }
}

#[test]
fn the_program_prints_31_and_goes_on() {
    let stream: &[u8] = &[4, 1, 2];
    let files = [
        patch_with(stream, &[0], totals(FULL - 1, 0)),
        section(&[7, 2, 4, 0, 9]),
        section(&[7, 1, 4, 0, 9]),
        section(&[7, 2, 0]),
        section(&[7, 1, 0]),
    ];
    assert_eq!(
        lines(&files),
        "31\n0 0701040009 040100\n31\n0 070100 040100\n"
    );
}
