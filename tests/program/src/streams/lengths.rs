//! Files of every length that a length of two bytes can say, at the places where a program might
//! mistake one: no byte, the longest slice, the longest patch, a length with its high bit set.

use comparison::formats::files::{patch, set_count, LONGEST_PATCH_FILE, LONGEST_SLICE_FILE};
use comparison::formats::kinds::node_kind::{CHAIN, SILENT};
use comparison::formats::kinds::type_kind::{BESIDE, CUE, EMPTY};
use comparison::formats::totals::TOTALS_SECTION;
use comparison::generators::slices::Pace;
use comparison::Random;

use crate::formats::{stream, LONGEST_FILE};
use crate::streams::shows::Show;

/// The lengths of slice files.
pub const SLICE_LENGTHS: [usize; 9] = [
    0,
    1,
    LONGEST_SLICE_FILE,
    LONGEST_SLICE_FILE + 1,
    LONGEST_PATCH_FILE,
    LONGEST_PATCH_FILE + 1,
    32_767,
    32_768,
    LONGEST_FILE,
];

/// The lengths of patch files.
pub const PATCH_LENGTHS: [usize; 8] = [
    0,
    1,
    2,
    LONGEST_PATCH_FILE,
    LONGEST_PATCH_FILE + 1,
    32_767,
    32_768,
    LONGEST_FILE,
];

/// What a long file is made of.
#[derive(Clone, Copy, Debug)]
enum Filling {
    /// Nothing that is in order.
    Garbage,
    /// A whole file, and more bytes behind it.
    Behind,
    /// A whole file, and more bytes in its last section, which counts them: who cuts the file finds
    /// its section too long.
    Counted,
}

const FILLINGS: [Filling; 3] = [Filling::Garbage, Filling::Behind, Filling::Counted];

/// Lengthens a file, or cuts it. Its last section begins at `last`.
fn fill(
    random: &mut Random,
    filling: Filling,
    mut file: Vec<u8>,
    last: usize,
    length: usize,
) -> Vec<u8> {
    let from = match filling {
        Filling::Garbage => 0,
        _ => file.len().min(length),
    };
    file.resize(length, 0);
    match random.below(3) {
        0 => random.fill(&mut file[from..]),
        1 => file[from..].fill(random.pick(&[0, 1, 4, 7])),
        _ => file[from..]
            .iter_mut()
            .for_each(|byte| *byte = random.below(8) as u8),
    }
    if matches!(filling, Filling::Counted) && last + 2 <= length {
        set_count(&mut file[last..], length - last - 2);
    }
    file
}

/// A patch file of some length, and two slices. `turn` goes through all lengths and fillings.
pub fn of_patch(turn: usize, random: &mut Random) -> Vec<u8> {
    let largest = turn % 4 == 3;
    let mut show = if largest {
        Show::of(largest_patch())
    } else {
        Show::sized(random, 1..=60, 310)
    };
    show.come(random, Pace::NOTHING);
    show.come(random, Pace::ALL);
    let mut files = show.files().to_vec();
    if !largest {
        let length = PATCH_LENGTHS[turn / 4 % PATCH_LENGTHS.len()];
        let totals = files[0].len() - TOTALS_SECTION;
        let last = random.pick(&[0, 2 + show.input().len(), totals]);
        files[0] = fill(random, FILLINGS[turn % 4], files[0].clone(), last, length);
    }
    stream(&files)
}

/// The longest patch file that can be accepted: 63 nodes, as many of them as can be without parts,
/// each silent with a type of 255.
fn largest_patch() -> Vec<u8> {
    let lanes = |leaf| [[BESIDE, leaf].repeat(127), vec![leaf]].concat();
    let silent = [vec![SILENT], lanes(EMPTY)].concat();
    let chained = [vec![CHAIN], silent.clone()].concat();
    patch(&lanes(CUE), &[chained.repeat(31), silent].concat())
}

/// A show with a file of each length among its slices. `turn` goes through the fillings.
pub fn of_slices(turn: usize, random: &mut Random) -> Vec<u8> {
    let mut show = Show::sized(random, 1..=100, LONGEST_PATCH_FILE);
    for (place, length) in SLICE_LENGTHS.iter().enumerate() {
        let pace = Pace::any(random);
        let slice = show.slice(random, pace);
        let filling = FILLINGS[(turn + place) % FILLINGS.len()];
        show.feed(fill(random, filling, slice, 0, *length));
        let pace = Pace::gentle(random);
        show.come(random, pace);
    }
    show.stream()
}
