//! The other direction of demand 3: a slice that Feed accepts whole, cut into pieces and fed.

use crate::calls::asking::{Asking, Fed};
use crate::calls::comparison::Agreed;
use crate::formats::files::contents;
use crate::generators::cuts::pieces;
use crate::generators::random::Random;
use crate::runs::demand::Demand;

/// What such a cut was like: the patch at the start, the one that the last piece left, and in how
/// many pieces something came.
#[derive(Clone, Debug)]
pub struct Split {
    pub start: Vec<u8>,
    pub left: Vec<u8>,
    pub arriving: usize,
}

/// Feeds the joined slices of a run, which Feed accepts as one, in pieces that follow no slice of the
/// run. Every piece is accepted, demand 3 holds of them, and the last one leaves the same patch.
/// None if nothing was accepted in the run.
pub fn split(
    random: &mut Random,
    asking: &mut Asking,
    run: &Demand,
) -> Result<Option<Split>, String> {
    let Some(whole) = run.joined() else {
        return Ok(None);
    };
    let number = random.pick(&[2, 2, 2, 3, 8]);
    let mut demand = run.anew();
    let mut patch = run.start().to_vec();
    let mut arriving = 0;
    for piece in pieces(random, contents(&whole.slices), number) {
        let fed = asking.feed(&patch, &piece)?;
        demand.after(asking, &piece, &fed)?;
        arriving += usize::from(fed.counts.arrived > 0);
        patch = fed.left;
    }
    run.as_anew(asking, &demand, &patch)?;
    Ok(Some(Split {
        start: run.start().to_vec(),
        left: patch,
        arriving,
    }))
}

/// Cuts slices of feeds that stand in no run; the cuts follow from a seed.
#[derive(Debug)]
pub struct Splits {
    random: Random,
    /// Since the last cut.
    feeds: usize,
}

/// Of so many feeds in which several cues and levels came or were sent, the slice of one is cut: its
/// pieces take as long as many calls.
const FEEDS_PER_SPLIT: usize = 10;

impl Splits {
    /// The cuts of a seed.
    pub fn new(seed: u64) -> Self {
        Splits {
            random: Random::new(seed),
            feeds: 0,
        }
    }

    /// Holds what an accepted feed of these files wrote to feeds of pieces of its slice, if it is its
    /// turn.
    pub fn try_against(
        &mut self,
        files: &[Vec<u8>],
        agreed: Agreed,
        noise: &mut Random,
    ) -> Result<Option<Split>, String> {
        let counts = agreed.answer.counts;
        self.feeds += usize::from(counts.arrived + counts.sent > 1);
        if self.feeds < FEEDS_PER_SPLIT {
            return Ok(None);
        }
        self.feeds = 0;
        let [patch, slice] = files else {
            unreachable!("Feed has two files");
        };
        let mut asking = Asking { noise };
        let mut run = Demand::new(&mut asking, patch)?;
        run.after(&mut asking, slice, &Fed::by(agreed))?;
        split(&mut self.random, &mut asking, &run)
    }
}
