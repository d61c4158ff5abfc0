//! What Longest wrote, held to other slices of the type: each of them is admitted, and none is
//! longer.

use second_interpreter::longest_by_trying;

use crate::calls::library::{self, Admitted};
use crate::formats::fault;
use crate::formats::files::{contents, decimal, section};
use crate::formats::preorder::arrivals;
use crate::formats::trees::type_of;
use crate::generators::random::Random;
use crate::generators::slices::{slice_at, Pace};

/// So many random slices are tried against each answer.
const SLICES: usize = 100;

/// If the type has at most so many nodes, all of its slices are tried, too.
const SMALL: usize = 9;

/// What was tried against an answer.
#[derive(Clone, Copy, Debug)]
pub struct Tried {
    /// The random slices.
    pub slices: usize,
    /// Whether all slices of the type were tried, too.
    pub all: bool,
}

/// Draws slices that follow from a seed.
#[derive(Debug)]
pub struct OtherSlices {
    random: Random,
}

impl OtherSlices {
    /// The slices of a seed.
    pub fn new(seed: u64) -> Self {
        OtherSlices {
            random: Random::new(seed),
        }
    }

    /// Holds a slice file that Longest wrote to what is asked of it: it is admitted and complete,
    /// and no slice of the type makes a longer one.
    pub fn try_against(&mut self, type_file: &[u8], longest: &[u8]) -> Result<Tried, String> {
        let answer = library::admit(type_file, longest);
        let due = Admitted {
            number: fault::ACCEPTED,
            complete: 1,
            arrived: arrivals(contents(longest)),
        };
        if answer != due {
            return Err(format!("of what Longest wrote Admit says {answer:?}"));
        }
        for turn in 0..SLICES {
            // Where all has come, only the choices can make a difference: these come close.
            let pace = if turn % 2 == 0 {
                Pace::ALL
            } else {
                Pace::any(&mut self.random)
            };
            let slice = slice_at(&mut self.random, pace, contents(type_file)).slice;
            try_one(type_file, longest, &section(&slice))?;
        }
        Ok(Tried {
            slices: SLICES,
            all: try_all(type_file, longest)?,
        })
    }
}

/// A slice of the type is admitted with its arrivals, and it is not longer.
fn try_one(type_file: &[u8], longest: &[u8], slice: &[u8]) -> Result<(), String> {
    let answer = library::admit(type_file, slice);
    if answer.number != fault::ACCEPTED {
        let (number, slice) = (answer.number, decimal(slice));
        Err(format!("Admit refuses a slice with {number}: {slice}"))
    } else if answer.arrived != arrivals(contents(slice)) {
        let (arrived, slice) = (answer.arrived, decimal(slice));
        Err(format!(
            "Admit counts {arrived} arrivals in a slice: {slice}"
        ))
    } else if slice.len() > longest.len() {
        let slice = decimal(slice);
        Err(format!(
            "a slice is longer than what Longest wrote: {slice}"
        ))
    } else {
        Ok(())
    }
}

/// The answer is as long as the longest of all slices. Says whether the type is small enough to
/// try.
fn try_all(type_file: &[u8], longest: &[u8]) -> Result<bool, String> {
    let tree = contents(type_file);
    if tree.len() > SMALL {
        return Ok(false);
    }
    let most = longest_by_trying(&type_of(tree));
    if longest.len() == most {
        Ok(true)
    } else {
        let length = longest.len();
        Err(format!(
            "Longest wrote {length} bytes, and the longest of all slices has {most}"
        ))
    }
}
