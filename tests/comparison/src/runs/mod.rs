//! Runs: a list of feeds, refused slices and short buffers among them, each handed the very bytes
//! that the last accepted one has written.

use crate::calls::asking::{Asking, Fed};
use crate::calls::call::{Call, Operation};
use crate::calls::comparison::compare;
use crate::formats::fault;
use crate::formats::files::{contents, decimal, section};
use crate::formats::trees::type_of;
use crate::generators::damage::{damage, few_bytes, SLICE_KINDS};
use crate::generators::feeds::accepted_patch;
use crate::generators::random::Random;
use crate::generators::slices::{one_arrival, slice_at, Come, Pace};
use crate::runs::demand::Demand;
use crate::runs::recut::recut;
use crate::runs::room::Room;
use crate::runs::split::split;
use crate::tallies::feeds::Position;
use crate::tallies::sums::Sums;
use crate::tallies::waits::Waits;
use crate::tallies::Tally;

mod demand;
pub(crate) mod recut;
mod room;
pub(crate) mod split;

/// An accepted feed of a run: the patch that it was handed, its slice, what it sent and left.
#[derive(Clone, Debug)]
pub struct Step {
    pub patch: Vec<u8>,
    pub slice: Vec<u8>,
    pub fed: Fed,
}

/// How a run is made.
#[derive(Clone, Copy, Debug)]
struct Plan {
    /// At most so many.
    feeds: usize,
    /// At first so many bring nothing, as while the house fills; and then so many one thing each.
    empty: usize,
    single: usize,
    pace: Pace,
    /// The chances, in a hundred, of a slice that need not fit and of buffers that need not.
    faults: usize,
    short: usize,
}

impl Plan {
    fn any(random: &mut Random) -> Self {
        let feeds = match random.below(20) {
            0 => 0,
            1..=2 => 1,
            3..=8 => random.between(2, 10),
            9..=16 => random.between(10, 40),
            _ => random.between(40, 120),
        };
        let empty = match random.below(4) {
            0..=1 => 0,
            2 => random.between(1, 4),
            _ => random.between(5, 40),
        };
        Plan {
            feeds,
            empty,
            single: random.pick(&[0, 1, 1, 2, 5]),
            pace: Pace::gentle(random),
            faults: random.pick(&[0, 0, 10, 10, 30, 30, 100]),
            short: random.pick(&[0, 10, 30]),
        }
    }
}

/// Makes runs that follow from a seed.
#[derive(Debug)]
pub struct Runs {
    random: Random,
}

impl Runs {
    /// The runs of a seed.
    pub fn new(seed: u64) -> Self {
        Runs {
            random: Random::new(seed),
        }
    }

    /// Makes one run, compares every call, and holds demand 3 and the room that Longest gives to
    /// it; then cuts its stream anew, by joining its slices and by cutting what was joined.
    pub fn compare_run(&mut self, noise: &mut Random, tally: &mut Tally) -> Result<(), String> {
        let plan = Plan::any(&mut self.random);
        let old = self.random.chance(30);
        let start = accepted_patch(&mut self.random, old);
        let told = |text: String| format!("{text}\n{}", run_so_far(&start, &[]));
        let demand = Demand::new(&mut Asking { noise }, &start).map_err(told)?;
        let mut run = Run {
            plan,
            room: Room::new(&mut Asking { noise }, &start).map_err(told)?,
            feeds: 0,
            steps: Vec::new(),
            patch: start.clone(),
            slice: Vec::new(),
            number: fault::ACCEPTED,
            waits: Waits::default(),
            sums: Sums::default(),
        };
        let demand = run
            .go(&mut self.random, noise, tally, demand)
            .map_err(|text| format!("{text}\n{}", run_so_far(&start, &run.steps)))?;
        let told = |text: String| format!("{text}\n{}", run_so_far(&start, &run.steps));
        tally.runs.add_run(&run.steps, run.feeds, old);
        tally.waits.add_run(&run.steps, &run.waits);
        tally.sums.add_run(&run.sums).map_err(told)?;
        tally.totals.add_run(&start, &run.patch);
        if !run.steps.is_empty() {
            let mut asking = Asking { noise };
            let anew = recut(&mut self.random, &mut asking, &demand, &run.steps).map_err(told)?;
            tally.runs.add_recut(&anew);
            tally.waits.add_recut(&anew, &run.waits);
            tally.sums.add_recut(anew.summed);
        }
        let split = split(&mut self.random, &mut Asking { noise }, &demand).map_err(told)?;
        if let Some(split) = split {
            let after = run.steps.len();
            (tally.totals).add_split(&split, Position::InRun { after });
        }
        Ok(())
    }
}

/// Whether nothing of the input of a patch is left to come.
pub fn is_spent(patch: &[u8]) -> bool {
    type_of(contents(patch)).is_nullable()
}

fn run_so_far(start: &[u8], steps: &[Step]) -> String {
    let mut text = format!("in a run from the patch {}\n", decimal(start));
    for step in steps {
        let (slice, output) = (decimal(&step.slice), decimal(&step.fed.output));
        text += &format!("  accepted {slice}, sent {output}\n");
    }
    text
}

/// A run under way.
struct Run {
    plan: Plan,
    room: Room,
    /// The calls so far, and the accepted ones among them.
    feeds: usize,
    steps: Vec<Step>,
    /// The bytes that the last accepted feed wrote, or those of the start.
    patch: Vec<u8>,
    /// The slice of the last call, accepted or not, and its number.
    slice: Vec<u8>,
    number: u32,
    waits: Waits,
    sums: Sums,
}

impl Run {
    /// Makes every call of the run. Holds the demand after each that is accepted and at the end,
    /// and the room after each.
    fn go(
        &mut self,
        random: &mut Random,
        noise: &mut Random,
        tally: &mut Tally,
        mut demand: Demand,
    ) -> Result<Demand, String> {
        while self.feeds < self.plan.feeds && !self.is_over(random) {
            let call = self.next_call(random);
            self.feeds += 1;
            self.slice.clone_from(&call.files[1]);
            let agreed = compare(&call, noise)?;
            self.number = agreed.answer.number;
            tally.runs.add_feed(agreed.answer.number, &call.files[1])?;
            tally.arrivals.add(&call, &agreed)?;
            let position = Position::InRun {
                after: self.steps.len(),
            };
            tally.totals.add(&call, &agreed, position)?;
            if agreed.answer.number != fault::ACCEPTED {
                self.sums.refuse(agreed.answer.number, &call.files[1]);
                continue;
            }
            let effects = tally.feeds.add(position, &call.files, &agreed)?;
            self.waits.follow(&effects)?;
            self.sums.accept(agreed.answer.counts);
            self.accept(Fed::by(agreed));
            let step = self.steps.last().expect("one was accepted");
            demand.after(&mut Asking { noise }, &step.slice, &step.fed)?;
            self.room.holds(&step.slice, &step.fed)?;
        }
        demand.as_one(&mut Asking { noise }, &self.patch)?;
        Ok(demand)
    }

    /// Some feeds after all has come, a run need not go on.
    fn is_over(&self, random: &mut Random) -> bool {
        self.feeds > 0 && is_spent(&self.patch) && random.chance(30)
    }

    /// The patch that was written is handed to the next call.
    fn accept(&mut self, fed: Fed) {
        let patch = std::mem::replace(&mut self.patch, fed.left.clone());
        self.steps.push(Step {
            patch,
            slice: self.slice.clone(),
            fed,
        });
    }

    fn next_call(&self, random: &mut Random) -> Call {
        let files = vec![self.patch.clone(), self.next_slice(random)];
        let mut call = Call::roomy(Operation::Feed, files);
        if random.chance(self.plan.short) {
            let which = random.below(2);
            let needs = call.needs()[which];
            let any = random.below(needs + 1);
            call.lent[which] = random.pick(&[needs, needs.saturating_sub(1), 0, any]);
        }
        call
    }

    /// A slice of what is left of the input, or one that need not be.
    fn next_slice(&self, random: &mut Random) -> Vec<u8> {
        let left = contents(&self.patch);
        let mut slice = section(&self.next_come(random, left).slice);
        if random.chance(self.plan.faults) {
            match random.below(4) {
                // What comes once more is refused, unless it brought nothing.
                0 => slice.clone_from(&self.slice),
                1 => slice = few_bytes(random, SLICE_KINDS),
                _ => damage(random, &mut slice, SLICE_KINDS),
            }
        }
        slice
    }

    /// A slice of what is left of the input.
    fn next_come(&self, random: &mut Random, left: &[u8]) -> Come {
        if self.feeds < self.plan.empty {
            return slice_at(random, Pace::NOTHING, left);
        }
        // Where much would pass the greatest total, little might not.
        let was_too_much = self.number == fault::TOTAL_TOO_LARGE && random.chance(50);
        if self.feeds < self.plan.empty + self.plan.single || was_too_much {
            return one_arrival(random, left);
        }
        let pace = match random.below(20) {
            0..=1 => Pace::NOTHING,
            2 => Pace::any(random),
            3 if random.chance(20) => Pace::ALL,
            4 => Pace::NO_ARRIVALS,
            _ => self.plan.pace,
        };
        slice_at(random, pace, left)
    }
}
