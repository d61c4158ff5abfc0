//! Totals by other rules than M-105's, wrong in one way each: to see that calls find it.

use second_interpreter::Totals;

use crate::calls::apart::Apart;
use crate::calls::call::{Call, Operation};
use crate::calls::counts::Counts;
use crate::formats::fault::{self, CUT_SHORT, LEFT_OVER, SLICE_NUMBERS, TOTAL_TOO_LARGE};
use crate::formats::files::{contents, count, section};
use crate::formats::preorder::arrivals;
use crate::formats::totals::{read_totals, totals_in, GREATEST_TOTAL, TOTALS_BYTES};

/// What a call of Check or Feed comes to: its number, and the totals in the patch left, if one is.
#[derive(Clone, Copy, Debug, PartialEq, Eq)]
struct Outcome {
    number: u32,
    totals: Option<Totals>,
}

impl Outcome {
    /// By the second interpreter.
    fn of(call: &Call) -> Self {
        let (answer, lent) = call.second_outcome();
        let left = lent.get(1).map(|left| &left[..answer.written[1]]);
        Outcome {
            number: answer.number,
            totals: left.and_then(totals_in),
        }
    }
}

/// What refuses a call, a fault of the patch in front of its totals aside.
#[derive(Clone, Copy, Debug, PartialEq, Eq)]
enum Refusal {
    /// What is behind the nodes.
    Section,
    SecondPass,
    Slice,
    /// A total that would pass the greatest.
    Total,
    Room,
}

use Refusal::{Room, SecondPass, Section, Slice, Total};

/// How totals are read and added, and when they refuse a call.
#[derive(Clone, Copy, Debug)]
pub struct Rule {
    pub name: &'static str,
    /// The totals in what is behind the nodes, or its number.
    read: fn(&[u8]) -> Result<Totals, u32>,
    /// The totals of the patch left; none where it is 31.
    add: fn(Totals, Counts) -> Option<Totals>,
    order: [Refusal; 5],
}

const fn reading(name: &'static str, read: fn(&[u8]) -> Result<Totals, u32>) -> Rule {
    Rule {
        name,
        read,
        ..Rule::RIGHT
    }
}

const fn adding(name: &'static str, add: fn(Totals, Counts) -> Option<Totals>) -> Rule {
    Rule {
        name,
        add,
        ..Rule::RIGHT
    }
}

const fn refusing(name: &'static str, order: [Refusal; 5]) -> Rule {
    Rule {
        name,
        order,
        ..Rule::RIGHT
    }
}

/// How many bytes are counted behind the nodes, and how many there are behind the count.
fn sizes(behind: &[u8]) -> (usize, usize) {
    (count(behind), behind.len().saturating_sub(2))
}

/// What is there to be counted, as totals: its first eight bytes, or with zeros behind what there is.
fn first_eight(behind: &[u8]) -> Result<Totals, u32> {
    let mut bytes = behind.get(2..).unwrap_or_default().to_vec();
    bytes.resize(TOTALS_BYTES, 0);
    read_totals(&section(&bytes))
}

/// The totals, where both sums are made in this way; none where one cannot be.
fn by_sums(totals: Totals, counts: Counts, sum: fn(u32, u32) -> Option<u32>) -> Option<Totals> {
    Some(Totals {
        arrived: sum(totals.arrived, counts.arrived)?,
        sent: sum(totals.sent, counts.sent)?,
    })
}

/// The sums go on at 0 behind the greatest.
fn wrapped(totals: Totals, counts: Counts) -> Totals {
    Totals {
        arrived: totals.arrived.wrapping_add(counts.arrived),
        sent: totals.sent.wrapping_add(counts.sent),
    }
}

/// The other order of the bytes of both.
fn low_byte_first(totals: Totals) -> Totals {
    Totals {
        arrived: totals.arrived.swap_bytes(),
        sent: totals.sent.swap_bytes(),
    }
}

/// Both as one number of eight bytes.
fn as_one_number(totals: Totals, counts: Counts) -> Option<Totals> {
    let one = |arrived: u32, sent: u32| u64::from(arrived) << 32 | u64::from(sent);
    let before = one(totals.arrived, totals.sent);
    let sum = before.checked_add(one(counts.arrived, counts.sent))?;
    Some(Totals {
        arrived: (sum >> 32) as u32,
        sent: sum as u32,
    })
}

impl Rule {
    /// M-105's own.
    pub const RIGHT: Rule = Rule {
        name: "right",
        read: read_totals,
        add: |totals, counts| counts.added_to(totals),
        order: [Section, SecondPass, Slice, Total, Room],
    };

    /// The wrong ones.
    pub const WRONG: [Rule; 36] = [
        // A section is taken for what it is not.
        reading("no_section_accepted", |behind| match behind {
            [] => Ok(Totals::default()),
            _ => read_totals(behind),
        }),
        reading("section_of_7_accepted", |behind| match sizes(behind) {
            (7, 7) => first_eight(behind),
            _ => read_totals(behind),
        }),
        reading("longer_section_accepted", |behind| match sizes(behind) {
            (counted @ 9.., there) if there == counted => first_eight(behind),
            _ => read_totals(behind),
        }),
        reading("bytes_behind_accepted", |behind| match sizes(behind) {
            (8, 9..) => first_eight(behind),
            _ => read_totals(behind),
        }),
        reading(
            "bytes_behind_a_shorter_section_are_3",
            |behind| match sizes(behind) {
                (counted @ ..8, there) if there > counted => Err(LEFT_OVER),
                _ => read_totals(behind),
            },
        ),
        reading(
            "longer_section_that_is_not_whole_is_3",
            |behind| match sizes(behind) {
                (9.., _) => Err(LEFT_OVER),
                _ => read_totals(behind),
            },
        ),
        reading("every_wrong_length_is_1", |behind| {
            read_totals(behind).map_err(|_| CUT_SHORT)
        }),
        reading("every_wrong_length_is_3", |behind| {
            read_totals(behind).map_err(|_| LEFT_OVER)
        }),
        reading("high_byte_of_the_count_not_read", |behind| match behind {
            [_, rest @ ..] => read_totals(&[&[0], rest].concat()),
            [] => read_totals(behind),
        }),
        reading("count_not_read", |behind| match behind {
            [_, _, rest @ ..] => read_totals(&section(rest)),
            _ => read_totals(behind),
        }),
        reading("full_totals_refused_with_the_patch", |behind| {
            let totals = read_totals(behind)?;
            if [totals.arrived, totals.sent].contains(&GREATEST_TOTAL) {
                return Err(TOTAL_TOO_LARGE);
            }
            Ok(totals)
        }),
        // The limit is another, or is tried otherwise.
        adding("wraps_around", |totals, counts| {
            Some(wrapped(totals, counts))
        }),
        adding("stays_at_the_greatest", |totals, counts| {
            by_sums(totals, counts, |total, more| {
                Some(total.saturating_add(more))
            })
        }),
        adding("refused_at_the_greatest", |totals, counts| {
            by_sums(totals, counts, |total, more| {
                total.checked_add(more).filter(|sum| *sum < GREATEST_TOTAL)
            })
        }),
        adding("full_totals_refused", |totals, counts| {
            by_sums(totals, counts, |total, more| match total {
                GREATEST_TOTAL => None,
                _ => total.checked_add(more),
            })
        }),
        adding("greatest_of_31_bits", |totals, counts| {
            by_sums(totals, counts, |total, more| {
                total.checked_add(more).filter(|sum| *sum < 1 << 31)
            })
        }),
        adding("only_arrived_tried", |totals, counts| {
            totals.arrived.checked_add(counts.arrived)?;
            Some(wrapped(totals, counts))
        }),
        adding("only_sent_tried", |totals, counts| {
            totals.sent.checked_add(counts.sent)?;
            Some(wrapped(totals, counts))
        }),
        adding("refused_only_if_both_pass", |totals, counts| {
            let arrived = totals.arrived.checked_add(counts.arrived);
            arrived.or(totals.sent.checked_add(counts.sent))?;
            Some(wrapped(totals, counts))
        }),
        adding("both_added_as_one_number", as_one_number),
        adding("sum_of_both_tried", |totals, counts| {
            let left = counts.added_to(totals)?;
            left.arrived.checked_add(left.sent)?;
            Some(left)
        }),
        // Something else is added.
        adding("sent_counted_from_the_input", |totals, counts| {
            let sent = counts.arrived;
            Counts { sent, ..counts }.added_to(totals)
        }),
        adding("arrived_counted_from_the_output", |totals, counts| {
            let arrived = counts.sent;
            Counts { arrived, ..counts }.added_to(totals)
        }),
        adding("arrived_added_twice", |totals, counts| {
            let arrived = 2 * counts.arrived;
            Counts { arrived, ..counts }.added_to(totals)
        }),
        adding("sent_added_twice", |totals, counts| {
            let sent = 2 * counts.sent;
            Counts { sent, ..counts }.added_to(totals)
        }),
        adding("sent_first", |totals, counts| {
            let (arrived, sent) = (counts.sent, counts.arrived);
            Counts { arrived, sent }.added_to(totals)
        }),
        adding("low_byte_first", |totals, counts| {
            (counts.added_to(low_byte_first(totals))).map(low_byte_first)
        }),
        adding("nothing_added", |totals, counts| {
            counts.added_to(totals).map(|_| totals)
        }),
        adding("counted_anew", |totals, counts| {
            counts.added_to(totals)?;
            counts.added_to(Totals::default())
        }),
        adding("one_byte_added", |totals, counts| {
            counts.added_to(totals)?;
            by_sums(totals, counts, |total, more| {
                Some(total & !0xff | (total.wrapping_add(more) & 0xff))
            })
        }),
        adding("two_bytes_added", |totals, counts| {
            counts.added_to(totals)?;
            by_sums(totals, counts, |total, more| {
                Some(total & !0xffff | (total.wrapping_add(more) & 0xffff))
            })
        }),
        // Calls are refused in another order.
        refusing(
            "section_tried_behind_the_second_pass",
            [SecondPass, Section, Slice, Total, Room],
        ),
        refusing(
            "section_tried_behind_the_slice",
            [SecondPass, Slice, Section, Total, Room],
        ),
        refusing(
            "31_before_the_slice",
            [Section, SecondPass, Total, Slice, Room],
        ),
        refusing(
            "31_before_the_second_pass",
            [Section, Total, SecondPass, Slice, Room],
        ),
        refusing("31_behind_20", [Section, SecondPass, Slice, Room, Total]),
    ];

    /// Whether a call tells this rule from what the second interpreter answers.
    pub fn is_found_by(self, call: &Call) -> bool {
        let parts = Apart::of(call);
        parts.is_some_and(|parts| self.outcome(call, &parts) != Outcome::of(call))
    }

    fn outcome(self, call: &Call, parts: &Apart) -> Outcome {
        let refused = self
            .order
            .into_iter()
            .find_map(|refusal| self.refuses(refusal, call, parts));
        match parts.in_front.or(refused) {
            Some(number) => Outcome {
                number,
                totals: None,
            },
            None => Outcome {
                number: fault::ACCEPTED,
                totals: self.left(call, parts),
            },
        }
    }

    /// The number with which the call is refused for this, if it is.
    fn refuses(self, refusal: Refusal, call: &Call, parts: &Apart) -> Option<u32> {
        match refusal {
            Section => (self.read)(&parts.behind).err(),
            SecondPass => parts.second_pass,
            Slice => Some(parts.rest.number).filter(|number| SLICE_NUMBERS.contains(number)),
            Total => {
                let is_refused =
                    call.operation == Operation::Feed && self.left(call, parts).is_none();
                is_refused.then_some(TOTAL_TOO_LARGE)
            }
            Room => parts.short.contains(&true).then_some(fault::NO_ROOM),
        }
    }

    /// The totals of the patch left; none if there is none.
    fn left(self, call: &Call, parts: &Apart) -> Option<Totals> {
        let [_, slice] = call.files.as_slice() else {
            return None;
        };
        let counts = match parts.rest.number {
            fault::ACCEPTED => parts.rest.counts,
            // Of a refused slice that is counted which can be read.
            _ => Counts {
                arrived: arrivals(contents(slice)),
                sent: 0,
            },
        };
        (self.add)((self.read)(&parts.behind).ok()?, counts)
    }
}
