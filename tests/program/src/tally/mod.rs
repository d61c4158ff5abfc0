//! What was met, counted from the streams and their lines.

use std::fmt;

use comparison::formats::fault;

use crate::formats::{refuses_patch, Parts, PATCH_NUMBERS};
use crate::streams::boundaries::BOUNDARIES;
use crate::streams::lengths::{PATCH_LENGTHS, SLICE_LENGTHS};
use crate::streams::{Case, Kind};
use crate::tally::features::{features, place, way, FEATURES, PLACES, WAYS};

mod features;

/// Fewer streams than this are not judged by what they met.
const JUDGED_FROM: u64 = 2_000;

/// The numbers of slices. 20 is none of them, nor of those of patches: the program's buffers are
/// long enough.
const SLICE_NUMBERS: [u32; 6] = [
    fault::ACCEPTED,
    fault::SLICE_CUT_SHORT,
    fault::SLICE_UNLISTED,
    fault::SLICE_LEFT_OVER,
    fault::SLICE_MISPLACED,
    fault::TOTAL_TOO_LARGE,
];

/// Under a title what was met, by its name.
type Group = (&'static str, Vec<(String, u64)>);

/// What was met.
#[derive(Clone, Debug, Default)]
pub struct Tally {
    kinds: [u64; Kind::ALL.len()],
    ways: [u64; WAYS.len()],
    patch_numbers: [u64; PATCH_NUMBERS.len()],
    slice_numbers: [u64; SLICE_NUMBERS.len()],
    patch_lengths: [u64; PATCH_LENGTHS.len()],
    /// Those with a whole tree at the front, and the others.
    slice_lengths: [[u64; SLICE_LENGTHS.len()]; 2],
    places: [[u64; PLACES.len()]; BOUNDARIES.len()],
    features: [u64; FEATURES.len()],
}

/// Counts a value, if it is in the list. Says whether it does.
fn count<Value: PartialEq>(counts: &mut [u64], list: &[Value], value: Value) -> bool {
    let at = list.iter().position(|listed| *listed == value);
    if let Some(at) = at {
        counts[at] += 1;
    }
    at.is_some()
}

impl Tally {
    /// Counts a stream and its lines. A line that cannot be is an error.
    pub fn add(&mut self, case: &Case, output: &[u8]) -> Result<(), String> {
        let parts = Parts::new(&case.stream);
        self.kinds[case.kind as usize] += 1;
        self.ways[way(&case.delivery)] += 1;
        let met = features(case, &parts, output);
        for (count, met) in self.features.iter_mut().zip(met) {
            *count += u64::from(met);
        }
        self.add_lines(&parts, output)?;
        for (begin, file) in &parts.files {
            for (places, boundary) in self.places.iter_mut().zip(BOUNDARIES) {
                if let Some(place) = place(*begin, file, boundary) {
                    places[place] += 1;
                }
            }
        }
        Ok(())
    }

    fn add_lines(&mut self, parts: &Parts, output: &[u8]) -> Result<(), String> {
        let numbers = output.split(|byte| *byte == b'\n').filter_map(number);
        let mut files = parts.files.iter().map(|(_, file)| file.len());
        if let Some(patch) = files.next() {
            count(&mut self.patch_lengths, &PATCH_LENGTHS, patch);
        }
        for number in numbers {
            let known = if refuses_patch(output) {
                count(&mut self.patch_numbers, &PATCH_NUMBERS, number)
            } else {
                let whole = usize::from(has_whole_slice(number));
                let length = files.next().ok_or("more lines than slices")?;
                count(&mut self.slice_lengths[whole], &SLICE_LENGTHS, length);
                count(&mut self.slice_numbers, &SLICE_NUMBERS, number)
            };
            if !known {
                return Err(format!("the second interpreter prints {number}"));
            }
        }
        Ok(())
    }

    /// All streams.
    pub fn total(&self) -> u64 {
        self.kinds.iter().sum()
    }

    fn groups(&self) -> Vec<Group> {
        let named = |names: &[&str], counts: &[u64]| zip(names.iter(), counts);
        let [others, whole] = &self.slice_lengths;
        let mut groups = vec![
            ("streams", zip(Kind::ALL.iter(), &self.kinds)),
            ("came", named(&WAYS, &self.ways)),
            (
                "patches refused with",
                zip(PATCH_NUMBERS.iter(), &self.patch_numbers),
            ),
            (
                "slices answered with",
                zip(SLICE_NUMBERS.iter(), &self.slice_numbers),
            ),
            (
                "patch files of length",
                zip(PATCH_LENGTHS.iter(), &self.patch_lengths),
            ),
            (
                "slice files, no whole slice at the front",
                zip(SLICE_LENGTHS.iter(), others),
            ),
            // In fewer than three bytes no slice is whole.
            (
                "slice files, a whole slice at the front",
                zip(SLICE_LENGTHS[2..].iter(), &whole[2..]),
            ),
        ];
        for (boundary, places) in ["64 KiB, a file's", "128 KiB, a file's"]
            .iter()
            .zip(&self.places)
        {
            groups.push((boundary, named(&PLACES, places)));
        }
        groups.push(("streams with", named(&FEATURES, &self.features)));
        groups
    }

    /// What streams of this number should have met and did not.
    pub fn gaps(&self) -> Vec<String> {
        if self.total() < JUDGED_FROM {
            return Vec::new();
        }
        let mut gaps = Vec::new();
        for (title, rows) in self.groups() {
            let missing = rows.iter().filter(|(_, count)| *count == 0);
            gaps.extend(missing.map(|(name, _)| format!("never met: {title}: {name}")));
        }
        gaps
    }
}

/// Whether a slice that is answered with this number is whole, though bytes may be behind it.
fn has_whole_slice(number: u32) -> bool {
    matches!(
        number,
        fault::ACCEPTED | fault::SLICE_LEFT_OVER | fault::TOTAL_TOO_LARGE
    )
}

fn zip<Name: fmt::Display>(
    names: impl Iterator<Item = Name>,
    counts: &[u64],
) -> Vec<(String, u64)> {
    names
        .map(|name| name.to_string())
        .zip(counts.iter().copied())
        .collect()
}

/// The number at the front of a line; none where there is no line.
fn number(line: &[u8]) -> Option<u32> {
    let field = line.split(|byte| *byte == b' ').next()?;
    std::str::from_utf8(field).ok()?.parse().ok()
}

impl fmt::Display for Tally {
    fn fmt(&self, out: &mut fmt::Formatter<'_>) -> fmt::Result {
        for (title, rows) in self.groups() {
            if rows.iter().all(|(name, _)| name.len() <= 6) {
                let words: Vec<String> = (rows.iter())
                    .map(|(name, count)| format!("{name}: {count}"))
                    .collect();
                writeln!(out, "{title}  {}", words.join("  "))?;
                continue;
            }
            writeln!(out, "{title}")?;
            for (name, count) in rows {
                writeln!(out, "{count:>9} {name}")?;
            }
        }
        Ok(())
    }
}
