//! What Longest is for, held to a run: room for the longest slices of the types at the start is
//! room for every slice of the run. What a slice leaves of a type has no longer slices than the
//! type.

use crate::calls::asking::{Asking, Fed};
use crate::formats::files::{contents, section};

/// The lengths of the longest slice files at the start of a run.
#[derive(Clone, Copy, Debug)]
pub struct Room {
    input: usize,
    output: usize,
}

impl Room {
    /// By the types that an accepted patch takes and gives.
    pub fn new(asking: &mut Asking, start: &[u8]) -> Result<Self, String> {
        let gives = asking.check(start)?;
        Ok(Room {
            input: asking.longest(&section(contents(start)))?.len(),
            output: asking.longest(&gives)?.len(),
        })
    }

    /// After an accepted feed: there is room for its slice and for what it sent.
    pub fn holds(self, slice: &[u8], fed: &Fed) -> Result<(), String> {
        if slice.len() > self.input {
            Err("a slice is longer than the longest of the type at the start".to_string())
        } else if fed.output.len() > self.output {
            Err("an output is longer than the longest of the type at the start".to_string())
        } else {
            Ok(())
        }
    }
}
