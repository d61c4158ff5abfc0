//! Shows: an accepted patch and the slices that are fed to it, refused ones among them.

use std::ops::RangeInclusive;

use comparison::formats::files::{contents, section, LONGEST_TYPE_FILE, MOST_ARRIVALS};
use comparison::formats::totals::{totals_in, GREATEST_TOTAL};
use comparison::generators::damage::{damage, few_bytes, SLICE_KINDS};
use comparison::generators::feeds::{accepted_patch, patch_left};
use comparison::generators::patch_damage::damage_patch;
use comparison::generators::patches::any_patch;
use comparison::generators::slices::{one_arrival, slice_at, slice_of, Come, Pace};
use comparison::Random;

use crate::formats::{stream, LONGEST_FILE};

/// Whether the slices of a stream can bring a total of this patch past the greatest. In all of them
/// together no more can arrive than in the longest of one, and no more can be sent.
fn might_pass(patch: &[u8]) -> bool {
    let totals = totals_in(patch).unwrap_or_default();
    totals.arrived.max(totals.sent) > GREATEST_TOTAL - MOST_ARRIVALS
}

/// What a slice leaves of a type, if it is one of that type.
fn type_left(type_file: &[u8], slice: &[u8]) -> Option<Vec<u8>> {
    let mut left = vec![0; LONGEST_TYPE_FILE];
    let length = second_interpreter::left(type_file, slice, &mut left).ok()?;
    left.truncate(length);
    Some(left)
}

/// A show under way.
#[derive(Clone, Debug)]
pub struct Show {
    files: Vec<Vec<u8>>,
    /// Whether a slice might be refused with 31.
    might_pass: bool,
    /// The patch that the slices so far leave. Where none of them might be refused with 31, only its
    /// first section: the input type is found faster than the patch.
    left: Vec<u8>,
    /// The length of the stream so far.
    length: usize,
}

impl Show {
    /// A show of this patch, which has to be accepted.
    pub fn of(patch: Vec<u8>) -> Self {
        let might_pass = might_pass(&patch);
        Show {
            might_pass,
            left: if might_pass {
                patch.clone()
            } else {
                section(contents(&patch))
            },
            length: 2 + patch.len(),
            files: vec![patch],
        }
    }

    /// A show of any patch.
    pub fn any(random: &mut Random) -> Self {
        let old = random.chance(20);
        Show::of(accepted_patch(random, old))
    }

    /// A show whose input type has so many nodes, and whose patch file at most so many bytes.
    pub fn sized(random: &mut Random, nodes: RangeInclusive<usize>, longest: usize) -> Self {
        loop {
            let show = Show::any(random);
            if nodes.contains(&show.input().len()) && show.length <= 2 + longest {
                return show;
            }
        }
    }

    /// The stream.
    pub fn stream(&self) -> Vec<u8> {
        stream(&self.files)
    }

    /// The files so far, the patch first.
    pub fn files(&self) -> &[Vec<u8>] {
        &self.files
    }

    /// The tree of the input type at the start.
    pub fn input(&self) -> &[u8] {
        contents(&self.files[0])
    }

    /// How many bytes the stream has.
    pub fn length(&self) -> usize {
        self.length
    }

    /// The tree of what is left of the input type.
    fn input_left(&self) -> &[u8] {
        contents(&self.left)
    }

    /// A slice of what is left.
    pub fn slice(&self, random: &mut Random, pace: Pace) -> Vec<u8> {
        section(&slice_at(random, pace, self.input_left()).slice)
    }

    /// Adds a slice at this pace.
    pub fn come(&mut self, random: &mut Random, pace: Pace) {
        let come = slice_at(random, pace, self.input_left());
        self.add(come);
    }

    /// Adds a slice of what is left, which is refused with 31 or accepted.
    fn add(&mut self, come: Come) {
        let slice = section(&come.slice);
        if self.might_pass {
            self.feed(slice);
        } else {
            self.left = section(&come.left);
            self.push(slice);
        }
    }

    /// Adds any bytes as a slice file, at most as many as a length can say.
    pub fn feed(&mut self, mut file: Vec<u8>) {
        file.truncate(LONGEST_FILE);
        let left = if self.might_pass {
            patch_left(&self.left, &file)
        } else {
            type_left(&self.left, &file)
        };
        if let Some(left) = left {
            self.left = left;
        }
        self.push(file);
    }

    fn push(&mut self, file: Vec<u8>) {
        self.length += 2 + file.len();
        self.files.push(file);
    }

    /// Adds a slice that need not fit.
    pub fn feed_fault(&mut self, random: &mut Random) {
        let mut file = self.slice(random, Pace::ALL);
        match random.below(8) {
            // What comes once more is refused, unless it brought nothing. At first it is the patch.
            0 => file.clone_from(&self.files[self.files.len() - 1]),
            1 => file = few_bytes(random, SLICE_KINDS),
            2 => file = Vec::new(),
            3 => file = section(self.input_left()),
            _ => damage(random, &mut file, SLICE_KINDS),
        }
        self.feed(file);
    }

    /// Often adds slices that bring nothing, as while the house fills, up to so many; and then one
    /// that brings one thing.
    fn begin(&mut self, random: &mut Random, most: usize) {
        if random.chance(60) {
            return;
        }
        for _ in 0..random.between(1, most) {
            self.come(random, Pace::NOTHING);
        }
        let come = one_arrival(random, self.input_left());
        self.add(come);
    }

    /// Adds so many slices.
    fn go_on(&mut self, random: &mut Random, slices: usize) {
        let pace = Pace::gentle(random);
        let faults = random.pick(&[0, 10, 10, 30, 30, 100]);
        for _ in 0..slices {
            match random.below(20) {
                _ if random.chance(faults) => self.feed_fault(random),
                0..=1 => self.come(random, Pace::NOTHING),
                _ => self.come(random, pace),
            }
        }
    }
}

/// The stream of a show with up to some hundred slices; often to its end, and on.
pub fn run(random: &mut Random) -> Vec<u8> {
    let mut show = Show::any(random);
    let slices = match random.below(20) {
        0 => 0,
        1..=2 => 1,
        3..=9 => random.between(2, 12),
        10..=17 => random.between(12, 60),
        _ => random.between(100, 400),
    };
    if slices > 1 {
        show.begin(random, slices.min(40));
    }
    show.go_on(random, slices);
    if slices > 0 && random.chance(30) {
        show.come(random, Pace::ALL);
        let slices = random.below(4);
        show.go_on(random, slices);
    }
    show.stream()
}

/// The stream of a show with a few slices, or of a damaged patch.
pub fn short_run(random: &mut Random) -> Vec<u8> {
    if random.chance(20) {
        return damaged_patch(random);
    }
    let mut show = Show::any(random);
    show.begin(random, 4);
    let slices = random.between(1, 20);
    show.go_on(random, slices);
    show.stream()
}

/// A patch with a fault, and slices behind it that nobody may see.
pub fn damaged_patch(random: &mut Random) -> Vec<u8> {
    let mut patch = any_patch(random);
    let tree = contents(&patch).to_vec();
    damage_patch(random, &mut patch);
    patch.truncate(LONGEST_FILE);
    let mut files = vec![patch];
    for _ in 0..random.below(4) {
        files.push(section(&slice_of(random, &tree).slice));
    }
    stream(&files)
}
