//! What runs were like, counted.

use std::fmt;

use second_interpreter::Slice;

use crate::formats::fault;
use crate::formats::files::contents;
use crate::formats::kinds::type_kind::EITHER;
use crate::formats::preorder::choices;
use crate::formats::trees::slice_tree;
use crate::runs::recut::Anew;
use crate::runs::{is_spent, Step};
use crate::tallies::feeds::LATE;

/// The numbers that a feed in a run can answer: its patch is always accepted.
const NUMBERS: [u32; 7] = [
    fault::ACCEPTED,
    fault::SLICE_CUT_SHORT,
    fault::SLICE_UNLISTED,
    fault::SLICE_LEFT_OVER,
    fault::SLICE_MISPLACED,
    fault::NO_ROOM,
    fault::TOTAL_TOO_LARGE,
];

/// How often something was met, by its name.
type Count = (u64, &'static str);

/// In which of its accepted slices a run chose. Those with one slice alone are not counted.
#[derive(Clone, Copy, Debug, Default)]
struct ChosenIn {
    first: u64,
    middle: u64,
    last: u64,
    /// None was chosen, though one could have been.
    never: u64,
}

impl ChosenIn {
    fn add(&mut self, steps: &[Step]) {
        let chooses = |step: &Step| choices(contents(&step.slice)) > 0;
        if let [first, middle @ .., last] = steps {
            let in_middle = middle.iter().any(chooses);
            let could = contents(&last.patch).contains(&EITHER);
            let never = could && !chooses(first) && !in_middle && !chooses(last);
            self.first += u64::from(chooses(first));
            self.middle += u64::from(in_middle);
            self.last += u64::from(chooses(last));
            self.never += u64::from(never);
        }
    }
}

/// What was met in runs.
#[derive(Clone, Debug, Default)]
pub struct RunTally {
    numbers: [u64; NUMBERS.len()],
    crossings: u64,
    choices: u64,
    choosing: u64,
    runs: u64,
    old: u64,
    without_feeds: u64,
    none_accepted: u64,
    late: u64,
    spent: u64,
    chosen: ChosenIn,
    recuts: u64,
    recut_feeds: u64,
    joined: u64,
}

impl RunTally {
    /// Counts one feed of a run. A number that it cannot have is an error.
    pub fn add_feed(&mut self, number: u32, slice: &[u8]) -> Result<(), String> {
        let column = (NUMBERS.iter().position(|known| *known == number))
            .ok_or_else(|| format!("Feed answers {number} for a patch left in a run"))?;
        self.numbers[column] += 1;
        if number == fault::ACCEPTED {
            self.crossings += u64::from(crosses(&slice_tree(contents(slice))));
            self.choices += choices(contents(slice));
            self.choosing += u64::from(choices(contents(slice)) > 0);
        }
        Ok(())
    }

    /// Counts a run, by its accepted steps and all its feeds.
    pub fn add_run(&mut self, steps: &[Step], feeds: usize, old: bool) {
        self.runs += 1;
        self.old += u64::from(old);
        self.without_feeds += u64::from(feeds == 0);
        self.none_accepted += u64::from(feeds > 0 && steps.is_empty());
        self.late += u64::from(steps.len() > LATE);
        let spent = |step: &Step| is_spent(&step.fed.left);
        self.spent += u64::from(steps.last().is_some_and(spent));
        self.chosen.add(steps);
    }

    /// Counts a stream that was cut anew.
    pub fn add_recut(&mut self, anew: &Anew) {
        self.recuts += 1;
        self.recut_feeds += anew.begins.len() as u64;
        self.joined += anew.joined as u64;
    }

    /// All choices that accepted slices made.
    pub fn choices(&self) -> u64 {
        self.choices
    }

    /// All runs.
    pub fn total(&self) -> u64 {
        self.runs
    }

    /// What runs should have met and did not.
    pub fn gaps(&self) -> Vec<String> {
        let mut gaps = Vec::new();
        for (number, count) in NUMBERS.iter().zip(self.numbers) {
            if count == 0 {
                gaps.push(format!("no feed in a run was answered {number}"));
            }
        }
        for (count, name) in self.of_runs().iter().chain(&self.of_feeds()) {
            if *count == 0 {
                gaps.push(format!("no {name}"));
            }
        }
        gaps
    }

    fn of_runs(&self) -> [Count; 10] {
        [
            (self.old, "runs from a patch that earlier feeds left"),
            (self.without_feeds, "runs without a feed"),
            (
                self.none_accepted,
                "runs with feeds of which none was accepted",
            ),
            (self.late, "runs of more than ten accepted feeds"),
            (self.spent, "runs to the end of the stream"),
            (self.chosen.first, "runs that chose in their first slice"),
            (self.chosen.middle, "runs that chose in a middle slice"),
            (self.chosen.last, "runs that chose in their last slice"),
            (self.chosen.never, "runs that never chose and could have"),
            (self.recuts, "runs whose stream was cut anew"),
        ]
    }

    fn of_feeds(&self) -> [Count; 4] {
        [
            (self.crossings, "accepted feeds in runs that crossed"),
            (self.choosing, "accepted feeds in runs that chose"),
            (self.recut_feeds, "feeds of streams cut anew"),
            (self.joined, "of them with several slices as one"),
        ]
    }
}

/// Whether a sequence is crossed anywhere in the slice.
fn crosses(slice: &Slice) -> bool {
    match slice {
        Slice::Crossed(..) => true,
        Slice::Uncrossed(part) | Slice::FirstChosen(part) | Slice::SecondChosen(part) => {
            crosses(part)
        }
        Slice::Beside(left, right) => crosses(left) || crosses(right),
        _ => false,
    }
}

impl fmt::Display for RunTally {
    fn fmt(&self, out: &mut fmt::Formatter<'_>) -> fmt::Result {
        let feeds: u64 = self.numbers.iter().sum();
        writeln!(out, "{:>9} runs", self.runs)?;
        for (count, name) in self.of_runs() {
            writeln!(out, "{count:>9} {name}")?;
        }
        write!(out, "{feeds:>9} feeds in runs; by number:")?;
        for (number, count) in NUMBERS.iter().zip(self.numbers) {
            write!(out, "  {number}: {count}")?;
        }
        writeln!(out)?;
        for (count, name) in self.of_feeds() {
            writeln!(out, "{count:>9} {name}")?;
        }
        Ok(())
    }
}
