//! Demand 3, held to a run from the outside: by calls of the library alone.

use second_interpreter::Totals;

use crate::calls::asking::{Asking, Fed};
use crate::calls::counts::Counts;
use crate::formats::files::{contents, section};
use crate::formats::totals::totals_in;

/// The slices and the outputs of the accepted feeds so far, each joined in order, and the sums of
/// their counts.
#[derive(Clone, Debug, PartialEq, Eq)]
pub struct Joined {
    pub slices: Vec<u8>,
    pub outputs: Vec<u8>,
    pub counts: Counts,
}

/// A run as the demand sees it: its start, and what was accepted so far.
#[derive(Clone, Debug)]
pub struct Demand {
    start: Vec<u8>,
    totals: Totals,
    /// The type files of the start.
    input: Vec<u8>,
    output: Vec<u8>,
    /// None while no feed has been accepted.
    joined: Option<Joined>,
}

impl Demand {
    /// Nothing has been fed yet; the patch at the start is accepted.
    pub fn new(asking: &mut Asking, start: &[u8]) -> Result<Self, String> {
        Ok(Demand {
            start: start.to_vec(),
            totals: totals_in(start).ok_or("the patch at the start has no totals")?,
            input: section(contents(start)),
            output: asking.check(start)?,
            joined: None,
        })
    }

    /// The same start, and nothing has been fed yet.
    pub fn anew(&self) -> Self {
        Demand {
            joined: None,
            ..self.clone()
        }
    }

    /// The patch at the start.
    pub fn start(&self) -> &[u8] {
        &self.start
    }

    /// What was accepted so far.
    pub fn joined(&self) -> Option<&Joined> {
        self.joined.as_ref()
    }

    /// After an accepted feed: the patch left is accepted, its input type is what the joined slices
    /// leave, and its output type is what the joined outputs leave. The joined slices have as many
    /// arrivals as all feeds counted together, and so have the joined outputs; the totals of the
    /// patch left are those at the start and these sums.
    pub fn after(&mut self, asking: &mut Asking, slice: &[u8], fed: &Fed) -> Result<(), String> {
        let joined = match self.joined.take() {
            None => Joined {
                slices: slice.to_vec(),
                outputs: fed.output.clone(),
                counts: fed.counts,
            },
            Some(before) => Joined {
                slices: asking.join(&self.input, &before.slices, slice)?,
                outputs: asking.join(&self.output, &before.outputs, &fed.output)?,
                counts: before.counts + fed.counts,
            },
        };
        let counted = Counts {
            arrived: asking.arrivals(&self.input, &joined.slices)?,
            sent: asking.arrivals(&self.output, &joined.outputs)?,
        };
        if counted != joined.counts {
            return Err("joined, slices or outputs do not have the sums of the counts".to_string());
        }
        if totals_in(&fed.left) != joined.counts.added_to(self.totals) {
            return Err("the totals left are not those at the start and the counts".to_string());
        }
        let given = asking.check(&fed.left)?;
        let input_left = asking.left(&self.input, &joined.slices)?;
        let output_left = asking.left(&self.output, &joined.outputs)?;
        self.joined = Some(joined);
        if section(contents(&fed.left)) != input_left {
            return Err("the patch left takes another type than the slices leave".to_string());
        }
        if given != output_left {
            return Err("the patch left gives another type than the outputs leave".to_string());
        }
        Ok(())
    }

    /// At any point: the joined slices, fed as one to the patch at the start, are accepted, send
    /// the joined outputs, and leave the patch that the run left, its totals included; if none was
    /// accepted, that is the patch at the start. What came and was sent is counted as in all feeds
    /// together.
    pub fn as_one(&self, asking: &mut Asking, patch: &[u8]) -> Result<(), String> {
        let Some(joined) = &self.joined else {
            return if patch == self.start {
                Ok(())
            } else {
                Err("nothing was accepted, and the patch is not the one at the start".to_string())
            };
        };
        let fed = asking.feed(&self.start, &joined.slices)?;
        if fed.output != joined.outputs {
            Err("fed as one, the slices do not send the joined outputs".to_string())
        } else if fed.left != patch {
            Err("fed as one, the slices do not leave the same patch".to_string())
        } else if fed.counts != joined.counts {
            Err("fed as one, the slices do not have the sums of the counts".to_string())
        } else {
            Ok(())
        }
    }

    /// The stream of this run was cut anew, and left this patch: what was joined and counted is the
    /// same, and so is the patch.
    pub fn as_anew(&self, asking: &mut Asking, anew: &Self, patch: &[u8]) -> Result<(), String> {
        if anew.joined != self.joined {
            return Err("cut anew, the stream is not the same as before".to_string());
        }
        anew.as_one(asking, patch)
    }
}
