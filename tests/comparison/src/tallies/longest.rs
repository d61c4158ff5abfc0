//! What Longest had to choose between, and what was tried against its answers, counted.

use std::cmp::Ordering;
use std::fmt;

use second_interpreter::Type;

use crate::calls::call::Call;
use crate::calls::comparison::Agreed;
use crate::formats::fault;
use crate::formats::files::{contents, LONGEST_SLICE_FILE};
use crate::formats::kinds::slice_kind::{FIRST_CHOSEN, SECOND_CHOSEN};
use crate::formats::preorder::slice_roots;
use crate::formats::trees::type_of;
use crate::other_slices::Tried;

/// How the sides of a choice compare by their bytes and by their nodes.
const BY_BYTES: [&str; 3] = [
    "the second is longer",
    "both are equally long",
    "the first is longer",
];
const BY_NODES: [&str; 3] = ["second has more nodes", "as many", "first has more"];

/// An answer with more choices of one side than this has them one inside another, mostly.
const MANY: u64 = 100;

/// The length of more than this takes two bytes.
const LONG: usize = 255;

/// A count for every way in which two sides compare: for each by bytes those by nodes.
type Choices = [[u64; BY_NODES.len()]; BY_BYTES.len()];

/// The longest slice of a type, as it is found by adding lengths.
#[derive(Clone, Copy, Debug, Default)]
struct Longest {
    nodes: usize,
    bytes: usize,
    /// How often the first and the second side is chosen in it, and between what sides.
    chosen: [u64; 2],
    choices: Choices,
    /// How often the side that is chosen has more bytes than fit in one byte.
    long: u64,
}

impl Longest {
    fn leaf(bytes: usize) -> Self {
        Longest {
            nodes: 1,
            bytes,
            ..Longest::default()
        }
    }

    fn of(stream: &Type) -> Self {
        match stream {
            Type::Empty | Type::Cue => Longest::leaf(1),
            Type::Level => Longest::leaf(3),
            Type::Sequence(one, other) | Type::Beside(one, other) => {
                Longest::both(Longest::of(one), &Longest::of(other))
            }
            Type::Either(first, second) => {
                Longest::longer(&Longest::of(first), &Longest::of(second))
            }
        }
    }

    fn both(mut one: Longest, other: &Longest) -> Self {
        one.nodes += 1 + other.nodes;
        one.bytes += 1 + other.bytes;
        one.long += other.long;
        add(&mut one.chosen, &other.chosen);
        for (times, more) in one.choices.iter_mut().zip(&other.choices) {
            add(times, more);
        }
        one
    }

    /// The longer side, and the first of two that are equally long. What the other side has inside
    /// is not in the slice.
    fn longer(first: &Longest, second: &Longest) -> Self {
        let is_second = second.bytes > first.bytes;
        let mut longest = if is_second { *second } else { *first };
        longest.nodes = 1 + first.nodes + second.nodes;
        longest.long += u64::from(longest.bytes > LONG);
        longest.bytes += 1;
        longest.chosen[usize::from(is_second)] += 1;
        let by_bytes = place(first.bytes.cmp(&second.bytes));
        let by_nodes = place(first.nodes.cmp(&second.nodes));
        longest.choices[by_bytes][by_nodes] += 1;
        longest
    }
}

/// The place in the lists above.
fn place(first_to_second: Ordering) -> usize {
    match first_to_second {
        Ordering::Less => 0,
        Ordering::Equal => 1,
        Ordering::Greater => 2,
    }
}

fn add(counts: &mut [u64], more: &[u64]) {
    for (count, more) in counts.iter_mut().zip(more) {
        *count += more;
    }
}

/// Counts those that came more often than this.
fn count_above(counts: &mut [u64], times: &[u64], often: u64) {
    for (count, times) in counts.iter_mut().zip(times) {
        *count += u64::from(*times > often);
    }
}

/// How often a kind is in a slice.
fn times(slice: &[u8], kind: u8) -> u64 {
    let roots = slice_roots(slice).into_iter();
    roots.filter(|at| slice[*at] == kind).count() as u64
}

/// What was met in calls of Longest.
#[derive(Clone, Debug, Default)]
pub struct LongestTally {
    /// How many answers have such a choice in them.
    choices: Choices,
    /// Answers with many choices of the first side, and with many of the second.
    many: [u64; 2],
    /// Answers with a long side that is chosen.
    long: u64,
    /// Answers as long as a slice can be in a buffer that they fill, and in one that is a byte
    /// short.
    filled: u64,
    byte_short: u64,
    /// What was tried against answers.
    tried: u64,
    slices: u64,
    all_tried: u64,
}

impl LongestTally {
    /// Counts a call that was accepted or refused with 20. Says if adding lengths finds another
    /// answer.
    pub fn add(&mut self, call: &Call, agreed: &Agreed) -> Result<(), String> {
        let longest = Longest::of(&type_of(contents(&call.files[0])));
        let (needs, lent) = (2 + longest.bytes, call.lent[0]);
        let fits = agreed.answer.number == fault::ACCEPTED;
        if fits != (needs <= lent) || fits && agreed.answer.written[0] != needs {
            return Err(format!(
                "adding lengths finds an answer of {needs} bytes\n{call}"
            ));
        }
        if needs == LONGEST_SLICE_FILE {
            self.filled += u64::from(lent == needs);
            self.byte_short += u64::from(lent + 1 == needs);
        }
        if fits {
            self.add_answer(&longest, contents(&agreed.files[0]))
                .map_err(|text| format!("{text}\n{call}"))?;
        }
        Ok(())
    }

    fn add_answer(&mut self, longest: &Longest, slice: &[u8]) -> Result<(), String> {
        let marks = [FIRST_CHOSEN, SECOND_CHOSEN];
        let chosen = marks.map(|mark| times(slice, mark));
        if chosen != longest.chosen {
            return Err(format!("adding lengths chooses {:?} times", longest.chosen));
        }
        count_above(&mut self.many, &chosen, MANY);
        self.long += u64::from(longest.long > 0);
        for (answers, times) in self.choices.iter_mut().zip(&longest.choices) {
            count_above(answers, times, 0);
        }
        Ok(())
    }

    /// Counts what was tried against an answer.
    pub fn add_tried(&mut self, tried: Tried) {
        self.tried += 1;
        self.slices += tried.slices as u64;
        self.all_tried += u64::from(tried.all);
    }

    /// What was tried against how many answers, in a line.
    pub fn told(&self) -> String {
        format!(
            "of {} slices tried against {} answers none is longer; {} answers were held to all slices",
            self.slices, self.tried, self.all_tried
        )
    }

    fn named(&self) -> [(u64, String); 6] {
        let most = LONGEST_SLICE_FILE;
        [
            (
                self.filled,
                format!("answers of {most} bytes filled their buffer"),
            ),
            (
                self.byte_short,
                format!("answers of {most} bytes were refused a buffer of one byte less"),
            ),
            (
                self.many[0],
                format!("answers chose the first side more than {MANY} times"),
            ),
            (
                self.many[1],
                format!("answers chose the second side more than {MANY} times"),
            ),
            (
                self.long,
                format!("answers chose a side of more than {LONG} bytes"),
            ),
            (
                self.all_tried,
                "answers were held to all slices".to_string(),
            ),
        ]
    }

    /// What a long comparison should have met and did not.
    pub fn gaps(&self) -> Vec<String> {
        let mut gaps = Vec::new();
        for (by_bytes, counts) in BY_BYTES.iter().zip(self.choices) {
            for (by_nodes, count) in BY_NODES.iter().zip(counts) {
                if count == 0 {
                    gaps.push(format!(
                        "no answer of Longest has a choice: {by_bytes}, {by_nodes}"
                    ));
                }
            }
        }
        let missing = self.named().into_iter().filter(|(count, _)| *count == 0);
        gaps.extend(missing.map(|(_, name)| format!("no {name}")));
        gaps
    }
}

impl fmt::Display for LongestTally {
    fn fmt(&self, out: &mut fmt::Formatter<'_>) -> fmt::Result {
        write!(out, "{:<40}", "answers of Longest with a choice where")?;
        for by_nodes in BY_NODES {
            write!(out, "{by_nodes:>23}")?;
        }
        for (by_bytes, counts) in BY_BYTES.iter().zip(self.choices) {
            write!(out, "\n{by_bytes:<40}")?;
            for count in counts {
                write!(out, "{count:>23}")?;
            }
        }
        writeln!(out)?;
        for (count, name) in self.named() {
            writeln!(out, "{count:>9} {name}")?;
        }
        Ok(())
    }
}
