//! The counts in an answer.

use std::iter::Sum;
use std::ops::Add;

use second_interpreter::Totals;

/// How many cues and levels came, and how many were sent: in one call, or in several together.
#[derive(Clone, Copy, Debug, Default, PartialEq, Eq)]
pub struct Counts {
    pub arrived: u32,
    pub sent: u32,
}

impl Counts {
    /// The totals with these counts added; none if one of the two would pass the greatest.
    pub fn added_to(self, totals: Totals) -> Option<Totals> {
        Some(Totals {
            arrived: totals.arrived.checked_add(self.arrived)?,
            sent: totals.sent.checked_add(self.sent)?,
        })
    }
}

impl Add for Counts {
    type Output = Counts;

    fn add(self, more: Counts) -> Counts {
        Counts {
            arrived: self.arrived + more.arrived,
            sent: self.sent + more.sent,
        }
    }
}

impl Sum for Counts {
    fn sum<All: Iterator<Item = Counts>>(all: All) -> Counts {
        all.fold(Counts::default(), Add::add)
    }
}
