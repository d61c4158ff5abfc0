//! The kinds of streams, and the streams of a seed.

use std::collections::VecDeque;
use std::fmt;

use comparison::Random;

use crate::running::delivery::Delivery;

mod answers;
pub(crate) mod boundaries;
mod ends;
pub(crate) mod lengths;
mod long;
mod pieces;
pub(crate) mod shows;

/// What a stream is there for.
#[derive(Clone, Copy, Debug, PartialEq, Eq)]
pub enum Kind {
    Runs,
    DamagedPatches,
    PatchLengths,
    SliceLengths,
    LargestAnswers,
    LongStreams,
    Boundaries,
    Ends,
    Pieces,
    Inputs,
    OpenInput,
}

impl Kind {
    /// Every kind, in the order of the table.
    pub const ALL: [Kind; 11] = [
        Kind::Runs,
        Kind::DamagedPatches,
        Kind::PatchLengths,
        Kind::SliceLengths,
        Kind::LargestAnswers,
        Kind::LongStreams,
        Kind::Boundaries,
        Kind::Ends,
        Kind::Pieces,
        Kind::Inputs,
        Kind::OpenInput,
    ];

    fn name(self) -> &'static str {
        match self {
            Kind::Runs => "runs of slices",
            Kind::DamagedPatches => "damaged patches",
            Kind::PatchLengths => "patch files of every length",
            Kind::SliceLengths => "slice files of every length",
            Kind::LargestAnswers => "the largest answers",
            Kind::LongStreams => "long streams",
            Kind::Boundaries => "files about 64 and 128 KiB",
            Kind::Ends => "ends at every byte",
            Kind::Pieces => "cut into reads",
            Kind::Inputs => "files, /dev/null and nothing",
            Kind::OpenInput => "input kept open",
        }
    }

    /// How many of ten thousand streams are of this kind. Long streams take long.
    fn share(self) -> u64 {
        match self {
            Kind::Runs => 2_500,
            Kind::DamagedPatches => 1_500,
            Kind::PatchLengths => 150,
            Kind::SliceLengths => 50,
            Kind::LargestAnswers => 50,
            Kind::LongStreams => 5,
            Kind::Boundaries => 600,
            Kind::Ends => 4_400,
            Kind::Pieces => 300,
            Kind::Inputs => 145,
            Kind::OpenInput => 300,
        }
    }

    /// Streams of this kind that belong together; `turn` counts them, so that a kind can go through
    /// a list.
    pub fn streams(self, turn: usize, random: &mut Random) -> Vec<Case> {
        let streams = match self {
            Kind::Runs => vec![shows::run(random)],
            Kind::DamagedPatches => vec![shows::damaged_patch(random)],
            Kind::PatchLengths => vec![lengths::of_patch(turn, random)],
            Kind::SliceLengths => vec![lengths::of_slices(turn, random)],
            Kind::LargestAnswers => vec![answers::largest(random)],
            Kind::LongStreams => vec![long::small_slices(random)],
            Kind::Boundaries => boundaries::about(turn, random),
            Kind::Ends => ends::at_every_byte(turn, random),
            Kind::Pieces => return self.cases(pieces::in_pieces(turn, random)),
            Kind::Inputs => return self.cases(pieces::inputs(random)),
            Kind::OpenInput => return self.cases(vec![(shows::short_run(random), Delivery::Open)]),
        };
        let delivery = random.pick(&[&Delivery::Pipe, &Delivery::Pipe, &Delivery::File]);
        let delivered = streams.into_iter().map(|stream| (stream, delivery.clone()));
        self.cases(delivered.collect())
    }

    fn cases(self, streams: Vec<(Vec<u8>, Delivery)>) -> Vec<Case> {
        let case = |(stream, delivery)| Case {
            kind: self,
            stream,
            delivery,
        };
        streams.into_iter().map(case).collect()
    }
}

impl fmt::Display for Kind {
    fn fmt(&self, out: &mut fmt::Formatter<'_>) -> fmt::Result {
        out.pad(self.name())
    }
}

/// A stream, and how it comes to the program.
#[derive(Clone, Debug)]
pub struct Case {
    pub kind: Kind,
    pub stream: Vec<u8>,
    pub delivery: Delivery,
}

/// The streams that follow from a seed.
#[derive(Debug)]
pub struct Streams {
    random: Random,
    turns: [usize; Kind::ALL.len()],
    made: [u64; Kind::ALL.len()],
    /// Made and still to come.
    queue: VecDeque<Case>,
}

impl Streams {
    /// The streams of a seed.
    pub fn new(seed: u64) -> Self {
        Streams {
            random: Random::new(seed),
            turns: [0; Kind::ALL.len()],
            made: [0; Kind::ALL.len()],
            queue: VecDeque::new(),
        }
    }

    /// The kind that is furthest behind its share; at the start each has its turn once.
    fn next_kind(&self) -> Kind {
        let done = |kind: &Kind| self.made[*kind as usize] * 1_000_000 / kind.share();
        Kind::ALL
            .into_iter()
            .min_by_key(done)
            .expect("there are kinds")
    }
}

impl Iterator for Streams {
    type Item = Case;

    fn next(&mut self) -> Option<Case> {
        if self.queue.is_empty() {
            let kind = self.next_kind();
            let cases = kind.streams(self.turns[kind as usize], &mut self.random);
            self.turns[kind as usize] += 1;
            self.made[kind as usize] += cases.len() as u64;
            self.queue.extend(cases);
        }
        self.queue.pop_front()
    }
}
