//! Streams that end: short ones, cut at every byte.

use comparison::formats::files::{patch, patch_with_totals, section};
use comparison::formats::totals::GREATEST_TOTAL;
use comparison::Random;
use second_interpreter::Totals;

use crate::formats::stream;
use crate::streams::shows::short_run;

/// A short stream has at most so many bytes.
const SHORT: usize = 120;

/// The stream cut at every length, and whole. The first turns have streams of their own.
pub fn at_every_byte(turn: usize, random: &mut Random) -> Vec<Vec<u8>> {
    let whole = match turn {
        0 => stream(&[prepend(), section(&[1]), section(&[2])]),
        1 => refused_slices(),
        2 => stream(&[patch(&[1], &[1, 3, 0, 0]), section(&[1]), section(&[2])]),
        3 => levels(),
        4 => waits(),
        5 => choices(),
        6 => stream(&[
            patch(&[5, 1, 2], &[15, 0, 0]),
            section(&[8]),
            section(&[9, 2]),
        ]),
        7 => totals(),
        _ => short(random),
    };
    (0..=whole.len()).map(|end| whole[..end].to_vec()).collect()
}

/// The patch of case 2.
fn prepend() -> Vec<u8> {
    patch(&[1], &[10, 14, 9, 2, 0])
}

/// Every number of a refused slice, with accepted ones between.
fn refused_slices() -> Vec<u8> {
    stream(&[
        prepend(),
        section(&[3]),
        Vec::new(),
        section(&[1]),
        section(&[200]),
        section(&[2, 2]),
        section(&[2]),
        section(&[2]),
        section(&[0]),
    ])
}

/// Values that look like line feeds, lengths and kinds.
fn levels() -> Vec<u8> {
    stream(&[
        patch(&[4, 2, 2], &[4, 6, 4, 5, 3, 255, 2]),
        section(&[7, 4, 10, 13, 3]),
        section(&[7, 0, 4, 0, 0]),
        section(&[7, 0, 0]),
    ])
}

/// A cue that waits for the left side, beside a level that waits for either: nothing comes, then
/// the right side is crossed, then the left side comes.
fn waits() -> Vec<u8> {
    stream(&[
        patch(&[4, 1, 3, 0, 1], &[4, 10, 5, 2, 3, 1, 44]),
        section(&[7, 1, 5, 0]),
        section(&[7, 1, 6, 0, 1]),
        section(&[7, 2, 1]),
    ])
}

/// Both choices, one after the other, with a slice that chooses once more.
fn choices() -> Vec<u8> {
    stream(&[
        patch(&[3, 5, 1, 2, 5, 2, 0], &[9, 15, 16, 2, 17, 1, 0]),
        section(&[5, 8]),
        section(&[5, 9, 1]),
        section(&[5, 9, 2]),
        section(&[6, 2, 8]),
        section(&[10, 0]),
    ])
}

/// What arrives comes to the greatest total and passes it, and what is sent does the same; between
/// and behind, slices that do not are accepted.
fn totals() -> Vec<u8> {
    let totals = Totals {
        arrived: GREATEST_TOTAL - 1,
        sent: GREATEST_TOTAL - 2,
    };
    stream(&[
        patch_with_totals(&[4, 1, 4, 0, 1], &[4, 0, 3, 1, 44], totals),
        section(&[7, 2, 7, 0, 2]),
        section(&[7, 1, 7, 0, 1]),
        section(&[7, 2, 7, 0, 1]),
        section(&[7, 0, 7, 0, 2]),
        section(&[7, 0, 7, 0, 1]),
    ])
}

/// Any short stream.
pub fn short(random: &mut Random) -> Vec<u8> {
    loop {
        let stream = short_run(random);
        if (20..=SHORT).contains(&stream.len()) {
            return stream;
        }
    }
}
