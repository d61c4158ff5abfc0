//! How long cues and levels waited in runs, and how the first arrival came, counted.

use std::fmt;

use second_interpreter::{slice_file, Slice};

use crate::formats::files::contents;
use crate::formats::preorder::brings;
use crate::formats::trees::slice_tree;
use crate::runs::recut::Anew;
use crate::runs::Step;
use crate::tallies::openings::Effect;

/// A cue or a level of a run that waited and then sent.
#[derive(Clone, Copy, Debug)]
struct Opened {
    /// The accepted feeds of the run before the one in which it sent, and those among them through
    /// which it waited.
    step: usize,
    waited: usize,
}

/// The cues and levels of a run under way.
#[derive(Clone, Debug, Default)]
pub struct Waits {
    /// Through how many accepted feeds each has waited that is still in the patch, from left to
    /// right. None before the first of them.
    waited: Option<Vec<usize>>,
    opened: Vec<Opened>,
    /// The accepted feeds so far.
    steps: usize,
}

impl Waits {
    /// After an accepted feed: what was done to each cue and level of the patch.
    pub fn follow(&mut self, effects: &[Effect]) -> Result<(), String> {
        let waited = (self.waited.take()).unwrap_or_else(|| vec![0; effects.len()]);
        if waited.len() != effects.len() {
            return Err("the patch has other cues and levels than were left in it".to_string());
        }
        let mut still = Vec::new();
        for (waited, effect) in waited.into_iter().zip(effects) {
            match effect {
                Effect::Unfed => still.push(waited),
                Effect::Waited(_) => still.push(waited + 1),
                Effect::Sent(_) if waited > 0 => {
                    let step = self.steps;
                    self.opened.push(Opened { step, waited });
                }
                Effect::Sent(_) | Effect::Gone => {}
            }
        }
        self.waited = Some(still);
        self.steps += 1;
        Ok(())
    }

    /// Through how many feeds each waited that never sent.
    fn never(&self) -> impl Iterator<Item = usize> + '_ {
        let still = self.waited.iter().flatten().copied();
        still.filter(|waited| *waited > 0)
    }
}

/// Where the numbers of feeds that bring nothing, or that one waits through, begin and end.
const LENGTHS: [(usize, usize, &str); 4] = [
    (1, 1, "1 feed"),
    (2, 9, "2 to 9 feeds"),
    (10, 23, "10 to 23 feeds"),
    (24, usize::MAX, "24 feeds or more"),
];

type Lengths = [u64; LENGTHS.len()];

fn count_length(counts: &mut Lengths, length: usize) {
    for (count, (least, most, _)) in counts.iter_mut().zip(LENGTHS) {
        *count += u64::from((least..=most).contains(&length));
    }
}

/// Runs in which what a cue or a level waited for came in two slices: those in which it sent with
/// the first of them, and those in which it waited on and sent with the second.
type Split = [u64; 2];

/// What was met in runs.
#[derive(Clone, Debug, Default)]
pub struct WaitTally {
    /// Runs that began with so many feeds that brought nothing, and then one that did.
    began: Lengths,
    /// Cues and levels that waited through so many feeds and then sent, and that never did.
    opened: Lengths,
    never: Lengths,
    runs_opened: u64,
    runs_never: u64,
    sides: Split,
    crossing: Split,
    /// Those that waited and then sent, and with another cut sent at once.
    at_once: u64,
}

impl WaitTally {
    /// Counts a run that demand 3 was held to, by its accepted steps.
    pub fn add_run(&mut self, steps: &[Step], waits: &Waits) {
        for opened in &waits.opened {
            count_length(&mut self.opened, opened.waited);
        }
        for waited in waits.never() {
            count_length(&mut self.never, waited);
        }
        self.runs_opened += u64::from(!waits.opened.is_empty());
        self.runs_never += u64::from(waits.never().next().is_some());
        let nothing = |step: &&Step| !brings(contents(&step.slice));
        let first = steps.iter().take_while(nothing).count();
        if first < steps.len() {
            count_length(&mut self.began, first);
        }
        self.add_splits(steps, waits);
    }

    /// Counts how the arrivals that were waited for are shared with the slices beside them.
    fn add_splits(&mut self, steps: &[Step], waits: &Waits) {
        let mut met = [Splitting::default(); 2];
        let mut opened: Vec<usize> = waits.opened.iter().map(|opened| opened.step).collect();
        opened.dedup();
        for step in opened {
            for (met, first) in met.iter_mut().zip([step, step - 1]) {
                if let [one, next, ..] = &steps[first..] {
                    let [one, next] = [one, next].map(|step| slice_tree(contents(&step.slice)));
                    met.look(&one, &next);
                }
            }
        }
        for (turn, split) in met.into_iter().enumerate() {
            self.sides[turn] += u64::from(split.sides);
            self.crossing[turn] += u64::from(split.crossing);
        }
    }

    /// Counts the same run cut anew: where a feed that one waited through is joined with the one in
    /// which it sent.
    pub fn add_recut(&mut self, anew: &Anew, waits: &Waits) {
        let at_once = (waits.opened.iter()).filter(|opened| !anew.begins.contains(&opened.step));
        self.at_once += at_once.count() as u64;
    }

    /// How many waited and then sent, and in how many runs.
    pub fn told(&self) -> String {
        format!(
            "{} cues and levels waited and then sent, in {} runs; in {} runs one never sent",
            self.opened.iter().sum::<u64>(),
            self.runs_opened,
            self.runs_never
        )
    }

    fn named(&self) -> [(u64, &'static str); 7] {
        let ([side, other_side], [first_part, crossing]) = (self.sides, self.crossing);
        [
            (
                self.runs_opened,
                "runs in which one waited through an accepted feed and then sent",
            ),
            (self.runs_never, "runs in which one waited and never sent"),
            (
                side,
                "runs in which one sent with a side, and the other side came next",
            ),
            (
                other_side,
                "runs in which one waited through a side, and sent with the other",
            ),
            (
                first_part,
                "runs in which one sent with a first part, and the crossing came next",
            ),
            (
                crossing,
                "runs in which one waited through a first part, and sent with the crossing",
            ),
            (
                self.at_once,
                "cues and levels that had waited sent at once with another cut",
            ),
        ]
    }

    fn tables(&self) -> [(&'static str, &Lengths); 3] {
        [
            ("runs began without an arrival", &self.began),
            ("cues and levels waited and sent", &self.opened),
            ("cues and levels waited to the end", &self.never),
        ]
    }

    /// What runs should have met and did not.
    pub fn gaps(&self) -> Vec<String> {
        let mut gaps = Vec::new();
        for (what, counts) in self.tables() {
            for ((_, _, length), count) in LENGTHS.iter().zip(counts) {
                if *count == 0 {
                    gaps.push(format!("no {what}: {length}"));
                }
            }
        }
        let missing = self.named().into_iter().filter(|(count, _)| *count == 0);
        gaps.extend(missing.map(|(_, name)| format!("no {name}")));
        gaps
    }
}

/// How two slices that come one after the other share an arrival.
#[derive(Clone, Copy, Debug, Default)]
struct Splitting {
    /// The first has one side of two alone, and the next the other alone.
    sides: bool,
    /// The first has of a sequence the first part, and the next its crossing.
    crossing: bool,
}

impl Splitting {
    /// Looks at each place of what the first slice leaves.
    fn look(&mut self, one: &Slice, next: &Slice) {
        let brings = |slice: &Slice| brings(contents(&slice_file(slice)));
        match (one, next) {
            (Slice::Beside(left, right), Slice::Beside(next_left, next_right)) => {
                let came = [left, right, next_left, next_right].map(|side| brings(side));
                self.sides |= matches!(
                    came,
                    [true, false, false, true] | [false, true, true, false]
                );
                self.look(left, next_left);
                self.look(right, next_right);
            }
            (Slice::Uncrossed(part), Slice::Uncrossed(next)) => self.look(part, next),
            (Slice::Uncrossed(part), Slice::Crossed(next, _)) => {
                self.crossing |= brings(part) && !brings(next);
                self.look(part, next);
            }
            (Slice::Crossed(_, part), next)
            | (Slice::FirstChosen(part) | Slice::SecondChosen(part), next) => self.look(part, next),
            _ => {}
        }
    }
}

impl fmt::Display for WaitTally {
    fn fmt(&self, out: &mut fmt::Formatter<'_>) -> fmt::Result {
        write!(out, "{:<35}", "in runs")?;
        for (_, _, length) in LENGTHS {
            write!(out, "{length:>18}")?;
        }
        for (what, counts) in self.tables() {
            write!(out, "\n{what:<35}")?;
            for count in counts {
                write!(out, "{count:>18}")?;
            }
        }
        writeln!(out)?;
        for (count, name) in self.named() {
            writeln!(out, "{count:>9} {name}")?;
        }
        Ok(())
    }
}
