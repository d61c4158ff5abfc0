//! Calls that have to be accepted: with long buffers, and compared as all others are.

use crate::calls::call::{Call, Operation};
use crate::calls::comparison::{compare, Agreed};
use crate::calls::counts::Counts;
use crate::formats::fault;
use crate::generators::random::Random;

/// A patch is fed, and sends and leaves these files; and what came and was sent.
#[derive(Clone, Debug, PartialEq, Eq)]
pub struct Fed {
    pub output: Vec<u8>,
    pub left: Vec<u8>,
    pub counts: Counts,
}

impl Fed {
    /// By what an accepted feed answered and wrote.
    pub fn by(agreed: Agreed) -> Self {
        let [output, left] = <[Vec<u8>; 2]>::try_from(agreed.files).expect("Feed writes two files");
        Fed {
            output,
            left,
            counts: agreed.answer.counts,
        }
    }
}

/// Makes the calls; what is in the buffers before is noise.
#[derive(Debug)]
pub struct Asking<'a> {
    pub noise: &'a mut Random,
}

impl Asking<'_> {
    fn ask(&mut self, operation: Operation, files: &[&[u8]]) -> Result<Agreed, String> {
        let files = files.iter().map(|file| file.to_vec()).collect();
        let call = Call::roomy(operation, files);
        let agreed = compare(&call, self.noise)?;
        match agreed.answer.number {
            fault::ACCEPTED => Ok(agreed),
            number => Err(format!("both refuse, with {number}:\n{call}")),
        }
    }

    fn ask_one(&mut self, operation: Operation, files: &[&[u8]]) -> Result<Vec<u8>, String> {
        Ok(self.ask(operation, files)?.files.swap_remove(0))
    }

    /// The type that a patch gives.
    pub fn check(&mut self, patch: &[u8]) -> Result<Vec<u8>, String> {
        self.ask_one(Operation::Check, &[patch])
    }

    /// How many cues and levels came in a slice.
    pub fn arrivals(&mut self, stream: &[u8], slice: &[u8]) -> Result<u32, String> {
        let agreed = self.ask(Operation::Admit, &[stream, slice])?;
        Ok(agreed.answer.counts.arrived)
    }

    /// What a slice leaves of a type.
    pub fn left(&mut self, stream: &[u8], slice: &[u8]) -> Result<Vec<u8>, String> {
        self.ask_one(Operation::Left, &[stream, slice])
    }

    /// Two slices as one.
    pub fn join(&mut self, stream: &[u8], first: &[u8], second: &[u8]) -> Result<Vec<u8>, String> {
        self.ask_one(Operation::Join, &[stream, first, second])
    }

    /// All slices, joined in order from the left; one alone is its own join.
    pub fn join_all<'b>(
        &mut self,
        stream: &[u8],
        slices: impl IntoIterator<Item = &'b [u8]>,
    ) -> Result<Vec<u8>, String> {
        let mut slices = slices.into_iter();
        let mut joined = slices.next().ok_or("nothing to join")?.to_vec();
        for slice in slices {
            joined = self.join(stream, &joined, slice)?;
        }
        Ok(joined)
    }

    /// The longest slice of a type.
    pub fn longest(&mut self, stream: &[u8]) -> Result<Vec<u8>, String> {
        self.ask_one(Operation::Longest, &[stream])
    }

    /// What a patch sends and leaves.
    pub fn feed(&mut self, patch: &[u8], slice: &[u8]) -> Result<Fed, String> {
        Ok(Fed::by(self.ask(Operation::Feed, &[patch, slice])?))
    }
}
