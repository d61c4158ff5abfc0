//! What a stream and its lines are like, as far as it is counted by name.

use comparison::formats::files::contents;
use comparison::formats::preorder::{brings, choices};
use comparison::formats::totals::totals_in;
use second_interpreter::Totals;

use crate::formats::{line_ends, refuses_patch, Parts};
use crate::running::delivery::Delivery;
use crate::streams::Case;

/// The longest line, with its line feed.
const LONGEST_LINE: usize = 1_536;

/// The place in an output at which a program's buffer might end.
const OUTPUT_BOUNDARY: usize = 65_536;

/// The ways in which a stream came.
pub const WAYS: [&str; 6] = [
    "through a pipe",
    "in pieces",
    "byte by byte",
    "from a file",
    "from /dev/null",
    "through a pipe that stays open",
];

/// The way in which a stream came.
pub fn way(delivery: &Delivery) -> usize {
    match delivery {
        Delivery::Pipe => 0,
        Delivery::Pieces(lengths) if lengths.iter().any(|length| *length > 1) => 1,
        Delivery::Pieces(_) => 2,
        Delivery::File => 3,
        Delivery::Null => 4,
        Delivery::Open => 5,
    }
}

/// What has to be met in some stream.
pub const FEATURES: [&str; 22] = [
    "no bytes at all",
    "end inside the patch's length",
    "end inside the patch file",
    "end behind the patch, without a slice",
    "end inside a slice's length",
    "end inside a slice file",
    "refused patch with files behind it",
    "refused slice with an accepted one behind it",
    "more than a hundred slices",
    "all of the input has come",
    "line of 1,536 characters",
    "line of 1,536 characters across 64 KiB of output",
    "more than 128 KiB of output",
    "more than 1 MiB of input",
    "choice in the first of the accepted slices",
    "choice in a middle one of them",
    "choice in the last of them",
    "choice that is never made",
    "slices that bring nothing in front of the first arrival",
    "ten of them or more",
    "accepted patch with totals other than 0",
    "slice refused with 31 between two that are accepted",
];

/// Whether each feature is there.
pub fn features(case: &Case, parts: &Parts, output: &[u8]) -> [bool; FEATURES.len()] {
    let (files, rest) = (parts.files.len(), parts.rest.len());
    let refused = refuses_patch(output);
    let lines: Vec<&[u8]> = output.split_inclusive(|byte| *byte == b'\n').collect();
    let longest = longest_line(output);
    let [first, middle, last, never] = chosen_in(parts, &lines);
    let waits = before_arrival(parts, &lines);
    [
        case.stream.is_empty(),
        files == 0 && rest == 1,
        files == 0 && rest > 1,
        files == 1 && rest == 0 && !refused,
        files > 0 && rest == 1 && !refused,
        files > 0 && rest > 1 && !refused,
        files > 1 && refused,
        lines
            .windows(2)
            .any(|pair| !is_accepted(pair[0]) && is_accepted(pair[1])),
        files > 101 && !refused,
        lines.last().is_some_and(|line| is_spent(line)),
        longest.is_some(),
        longest.is_some_and(|(begin, end)| begin < OUTPUT_BOUNDARY && OUTPUT_BOUNDARY < end),
        output.len() > 2 * OUTPUT_BOUNDARY,
        case.stream.len() > 1 << 20,
        first,
        middle,
        last,
        never,
        waits > 0,
        waits >= 10,
        !refused && has_totals(parts),
        passes_between(&lines),
    ]
}

/// Whether the patch was fed before, as far as its totals tell.
fn has_totals(parts: &Parts) -> bool {
    let patch = parts.files.first();
    patch.is_some_and(|(_, file)| totals_in(file).unwrap_or_default() != Totals::default())
}

/// Whether a total would have been passed, and slices in front of that one and behind it were
/// accepted.
fn passes_between(lines: &[&[u8]]) -> bool {
    let passed = lines
        .iter()
        .enumerate()
        .filter(|(_, line)| **line == b"31\n");
    let is_some_accepted = |lines: &[&[u8]]| lines.iter().any(|line| is_accepted(line));
    passed
        .map(|(at, _)| lines.split_at(at))
        .any(|(before, behind)| is_some_accepted(before) && is_some_accepted(behind))
}

/// The accepted slices of a stream.
fn accepted<'a>(parts: &'a Parts, lines: &'a [&[u8]]) -> impl Iterator<Item = &'a [u8]> {
    let slices = parts.files.iter().skip(1).zip(lines);
    slices
        .filter(|(_, line)| is_accepted(line))
        .map(|((_, file), _)| contents(file))
}

/// How many accepted slices bring nothing in front of the first that brings something; none if that
/// never comes.
fn before_arrival(parts: &Parts, lines: &[&[u8]]) -> usize {
    accepted(parts, lines).position(brings).unwrap_or_default()
}

/// In which of its accepted slices, if there are several, a stream chooses: in the first, in one
/// between, in the last, or in none though it could.
fn chosen_in(parts: &Parts, lines: &[&[u8]]) -> [bool; 4] {
    let chooses: Vec<bool> = accepted(parts, lines)
        .map(|slice| choices(slice) > 0)
        .collect();
    let [first, middle @ .., last] = chooses.as_slice() else {
        return [false; 4];
    };
    let some = chooses.contains(&true);
    let could = lines.iter().any(|line| leaves_choice(line));
    [*first, middle.contains(&true), *last, could && !some]
}

fn is_accepted(line: &[u8]) -> bool {
    line.starts_with(b"0 ")
}

/// The kinds of the type left, the last field, each in two digits.
fn kinds_left(line: &[u8]) -> impl Iterator<Item = &[u8]> {
    let field = line.rsplit(|byte| *byte == b' ').next().unwrap_or_default();
    field.trim_ascii_end().chunks(2)
}

/// Whether the type left has nothing but empty types side by side.
fn is_spent(line: &[u8]) -> bool {
    is_accepted(line) && kinds_left(line).all(|kind| kind == b"00" || kind == b"04")
}

/// Whether the type left has an either.
fn leaves_choice(line: &[u8]) -> bool {
    is_accepted(line) && kinds_left(line).any(|kind| kind == b"05")
}

/// Where a line of the greatest length begins and ends.
fn longest_line(output: &[u8]) -> Option<(usize, usize)> {
    let ends = line_ends(output);
    let begins = std::iter::once(0).chain(ends.iter().copied());
    begins
        .zip(ends.iter().copied())
        .find(|(begin, end)| end - begin == LONGEST_LINE)
}

/// How a file can lie about a place in the input.
pub const PLACES: [&str; 5] = [
    "contents across",
    "contents begin at",
    "length across",
    "begins at",
    "begins a byte behind",
];

/// How a file, whose length is here, lies about the boundary.
pub fn place(begin: usize, file: &[u8], boundary: usize) -> Option<usize> {
    match (begin + 2).checked_sub(boundary) {
        None if begin + 2 + file.len() > boundary => Some(0),
        None => None,
        Some(behind @ 0..=3) => Some(behind + 1),
        Some(_) => None,
    }
}
