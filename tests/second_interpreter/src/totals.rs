//! Request M-105, "Totals travel with the show": what a patch file's third section
//! holds, and what a feed makes of it.

use crate::numbers::{Number, TOTAL_TOO_LARGE};

/// The totals of a patch: "arrived, then sent, four bytes each, high byte first".
/// A show that has not been fed has both at zero.
#[derive(Clone, Copy, Debug, Default, PartialEq, Eq)]
pub struct Totals {
    /// The cues and levels that have come in the slices fed so far.
    pub arrived: u32,
    /// Those that have come in the outputs sent so far.
    pub sent: u32,
}

impl Totals {
    /// "Feed adds its two counts", each to its own total; "31, a total would pass
    /// 4,294,967,295", whichever of the two it is.
    pub(crate) fn with_counts(self, arrived: u32, sent: u32) -> Result<Totals, Number> {
        Ok(Totals {
            arrived: sum(self.arrived, arrived)?,
            sent: sum(self.sent, sent)?,
        })
    }
}

/// A total with a count added. 4,294,967,295 is the largest number of four bytes, so
/// a total would pass it exactly when the sum does not fit.
fn sum(total: u32, count: u32) -> Result<u32, Number> {
    total.checked_add(count).ok_or(TOTAL_TOO_LARGE)
}
