//! Wrong programs are found, each by the kinds of streams that are there for it.

use std::time::Duration;

use comparison::convention::Stop;
use comparison::other_rules::Rule;
use comparison::Random;
use program::Kind::{
    Boundaries, DamagedPatches, Ends, Inputs, LargestAnswers, LongStreams, OpenInput, PatchLengths,
    Pieces, Runs, SliceLengths,
};
use program::{hold, Kind, Program, Streams};

/// A program that is wrong in this way; without a fault it is right.
fn wrong_program(fault: &str) -> Program {
    let mut program = Program::at(env!("CARGO_BIN_EXE_wrong_program"));
    program.words = vec![fault.to_string()];
    program
}

/// The faults, and who finds them.
const WRONG: [(&str, &[Kind]); 65] = [
    // What is printed.
    ("upper_case", &[Runs, LargestAnswers, OpenInput]),
    ("one_digit_below_16", &[Runs, Ends]),
    ("counts_printed", &[Runs, Ends]),
    ("arrivals_printed", &[Runs, Ends]),
    ("totals_printed", &[Runs, Ends]),
    ("space_at_the_end", &[Runs, DamagedPatches, Ends]),
    ("carriage_return", &[Runs, DamagedPatches, Ends]),
    ("no_last_line_feed", &[Runs, DamagedPatches, Ends]),
    ("line_buffer_of_1535", &[LargestAnswers]),
    ("line_buffer_of_1024", &[LargestAnswers]),
    ("output_buffer_of_512", &[LargestAnswers]),
    // The length of the longest patch before it had totals, and one less than that of now.
    ("patch_buffer_of_8482", &[PatchLengths]),
    ("patch_buffer_of_8491", &[PatchLengths]),
    ("first_64_kib_of_output", &[LargestAnswers, LongStreams]),
    ("type_before_printed", &[Runs, Ends]),
    ("accepted_patch_prints_0", &[Runs, Ends]),
    ("nothing_prints", &[Ends, Inputs]),
    ("speaks_on_standard_error", &[Runs, DamagedPatches]),
    ("lines_at_the_end", &[OpenInput]),
    // Which patch is fed, and when it stops.
    ("patch_never_replaced", &[Runs, Ends]),
    ("refused_slice_stops", &[Runs, SliceLengths, Ends]),
    ("refused_slice_starts_anew", &[Runs, SliceLengths, Ends]),
    ("refused_slice_clears_patch", &[Runs, SliceLengths, Ends]),
    (
        "refused_patch_goes_on",
        &[DamagedPatches, PatchLengths, Ends],
    ),
    (
        "refused_patch_feeds_on",
        &[DamagedPatches, PatchLengths, Ends],
    ),
    ("refused_patch_reads_on", &[OpenInput]),
    ("refused_patch_is_an_error", &[DamagedPatches]),
    ("does_not_end", &[Inputs]),
    // Choices.
    ("differing_outputs_pass", &[DamagedPatches]),
    ("choice_keeps_patch", &[Runs, Ends]),
    ("second_choice_fed_as_first", &[Runs, Ends]),
    ("second_marked_as_first", &[Runs, Ends]),
    ("none_chosen_sends_nothing", &[Runs, Ends]),
    // Totals, of which nothing is seen but 31 and a refused patch.
    ("totals_lost_between_slices", &[Runs, Ends]),
    ("totals_begin_at_0", &[Runs, Ends]),
    ("passed_total_stops", &[Runs, Ends]),
    ("totals_have_to_be_0", &[Runs, Ends]),
    ("two_sections_pass", &[DamagedPatches]),
    // When cues and levels send: the rules of `comparison::other_rules`.
    ("only_arrivals_open", &[Runs, Ends]),
    ("opened_by_the_slice_of_the_patch", &[Runs, Ends]),
    ("complete_does_not_open", &[Runs, Ends]),
    ("sends_twice", &[Runs, Ends]),
    ("sends_at_the_first_feed", &[Runs, Ends]),
    ("waits_for_a_complete_slice", &[Runs, Ends]),
    // Files and their lengths.
    ("cut_file_prints", &[Ends]),
    ("cut_length_prints", &[Ends]),
    ("empty_file_ends", &[Runs, PatchLengths, SliceLengths, Ends]),
    ("low_byte_first", &[Runs, Ends]),
    ("signed_length", &[PatchLengths, SliceLengths]),
    ("files_of_513", &[PatchLengths, SliceLengths]),
    ("files_of_8482", &[PatchLengths, SliceLengths]),
    ("files_of_8492", &[PatchLengths, SliceLengths]),
    ("files_of_32767", &[PatchLengths, SliceLengths]),
    ("files_of_65534", &[PatchLengths, SliceLengths]),
    ("long_file_not_skipped", &[PatchLengths, SliceLengths]),
    // Reads.
    (
        "first_64_kib_of_input",
        &[SliceLengths, LongStreams, Boundaries],
    ),
    ("first_mib_of_input", &[LongStreams]),
    ("one_read_is_enough", &[Pieces]),
    (
        "lost_when_across_a_read",
        &[Pieces, LongStreams, Boundaries],
    ),
    ("contents_across_64_kib", &[SliceLengths, Boundaries]),
    ("contents_at_64_kib", &[Boundaries]),
    ("length_across_64_kib", &[Boundaries]),
    ("file_at_64_kib", &[Boundaries]),
    ("pipes_only", &[Inputs]),
    ("files_only", &[Ends]),
];

/// So many streams of a kind find the error, or it is not found.
const MOST_STREAMS: usize = 450;

/// How many streams of a kind it takes to find it, if the kind does.
fn streams_to_find(kind: Kind, program: &Program) -> Option<usize> {
    let mut random = Random::new(5);
    let turns = 0..MOST_STREAMS;
    let mut streams = turns.flat_map(|turn| kind.streams(turn, &mut random));
    let mut some = streams.by_ref().take(MOST_STREAMS);
    let found = some.position(|case| matches!(hold(program, &case), Err(Stop::Difference(_))))?;
    Some(found + 1)
}

#[test]
fn every_wrong_program_is_found() {
    let mut missed = Vec::new();
    for (fault, kinds) in WRONG {
        let mut program = wrong_program(fault);
        program.at_once = Duration::from_secs(1);
        program.to_the_end = Duration::from_secs(5);
        for kind in kinds {
            match streams_to_find(*kind, &program) {
                Some(streams) => println!("{fault}: {kind}, found at stream {streams}"),
                None => missed.push(format!("{fault}: {kind}")),
            }
        }
    }
    assert_eq!(missed, Vec::<String>::new(), "not found");
}

/// A wrong rule that the list above does not name would be tried by no stream.
#[test]
fn every_wrong_rule_is_among_the_faults() {
    for rule in Rule::WRONG {
        assert!(
            WRONG.iter().any(|(fault, _)| *fault == rule.name),
            "{}",
            rule.name
        );
    }
}

/// Without this a comparison that refuses everything would find every wrong program, too.
#[test]
fn the_right_program_is_held_right() {
    let program = wrong_program("");
    for case in Streams::new(5).take(300) {
        if let Err(stop) = hold(&program, &case) {
            panic!("{stop:?}");
        }
    }
}
