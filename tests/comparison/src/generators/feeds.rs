//! Random files for Feed: a patch, new or left by earlier feeds, and a slice of its input type.

use crate::calls::apart::Apart;
use crate::calls::call::{Call, Operation};
use crate::calls::counts::Counts;
use crate::formats::files::{
    contents, section, LONGEST_PATCH_FILE, LONGEST_SLICE_FILE, LONGEST_TYPE_FILE,
};
use crate::formats::totals::with_totals;
use crate::generators::patches::{any_patch, crossing_patch, full_patch, waiting_patch};
use crate::generators::random::Random;
use crate::generators::slices::{all_of, little_of, slice_at, slice_of, Come, Pace};
use crate::generators::totals::{totals_about, totals_for_a_run};

/// In so many of a hundred calls of Feed the totals are about the greatest for this very slice.
const ABOUT_THE_GREATEST: usize = 15;

/// What draws a slice of the type with a tree.
type SliceOf = fn(&mut Random, &[u8]) -> Come;

/// A patch, most often one that is accepted, and a slice of its input type.
pub fn feed_files(random: &mut Random) -> [Vec<u8>; 2] {
    let (mut patch, slice): (_, SliceOf) = match random.below(100) {
        0..=24 => (waiting_patch(random), little_of),
        25..=27 => (full_patch(random), all_of),
        _ => (any_patch(random), slice_of),
    };
    if random.chance(30) {
        patch = fed(random, patch);
    }
    let slice = random.pick(&[slice, slice_of])(random, contents(&patch));
    let slice = section(&slice.slice);
    if random.chance(ABOUT_THE_GREATEST) {
        patch = about_the_greatest(random, patch, &slice);
    }
    [patch, slice]
}

/// The patch with totals that come to about the greatest with this slice.
fn about_the_greatest(random: &mut Random, patch: Vec<u8>, slice: &[u8]) -> Vec<u8> {
    let files = vec![patch.clone(), slice.to_vec()];
    let parts = Apart::of(&Call::roomy(Operation::Feed, files));
    let counts = parts.map_or_else(Counts::default, |parts| parts.rest.counts);
    with_totals(&patch, totals_about(random, counts)).unwrap_or(patch)
}

/// The patch that a few feeds leave; a patch that is refused stays as it is.
pub fn fed(random: &mut Random, mut patch: Vec<u8>) -> Vec<u8> {
    for _ in 0..random.between(1, 6) {
        let gentle = Pace::gentle(random);
        let pace = random.pick(&[gentle, gentle, Pace::NOTHING]);
        let slice = section(&slice_at(random, pace, contents(&patch)).slice);
        patch = patch_left(&patch, &slice).unwrap_or(patch);
    }
    patch
}

/// The patch that a feed leaves, if it is accepted.
pub fn patch_left(patch: &[u8], slice: &[u8]) -> Option<Vec<u8>> {
    let (mut output, mut left) = ([0; LONGEST_SLICE_FILE], vec![0; LONGEST_PATCH_FILE]);
    let fed = second_interpreter::feed(patch, slice, &mut output, &mut left).ok()?;
    left.truncate(fed.patch);
    Some(left)
}

/// An accepted patch, new or left by earlier feeds, for a run.
pub fn accepted_patch(random: &mut Random, old: bool) -> Vec<u8> {
    loop {
        let mut patch = match random.below(100) {
            0..=47 => crossing_patch(random),
            48..=76 => waiting_patch(random),
            77..=80 => full_patch(random),
            _ => any_patch(random),
        };
        if old {
            patch = fed(random, patch);
        }
        patch = with_totals(&patch, totals_for_a_run(random)).unwrap_or(patch);
        if second_interpreter::check(&patch, &mut [0; LONGEST_TYPE_FILE]).is_ok() {
            return patch;
        }
    }
}
