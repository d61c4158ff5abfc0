//! Random slices of a type, written as the bytes of their trees together with what they leave.

use crate::formats::kinds::{slice_kind, type_kind};
use crate::formats::preorder::type_end;
use crate::generators::damage::SLICE_KINDS;
use crate::generators::random::Random;

/// A slice, and what it leaves of its type.
#[derive(Clone, Debug)]
pub struct Come {
    pub slice: Vec<u8>,
    pub left: Vec<u8>,
}

/// How much comes; the chances are in a hundred.
#[derive(Clone, Copy, Debug)]
pub struct Pace {
    /// That a cue or a level comes.
    pub come: usize,
    /// That a sequence is crossed, and all of its first part comes with it.
    pub cross: usize,
    /// That a sequence is crossed of whose first part nothing is left to come.
    pub cross_spent: usize,
    /// That one of the two parts of an either is chosen.
    pub choose: usize,
}

impl Pace {
    /// Nothing at all.
    pub const NOTHING: Pace = Pace {
        come: 0,
        cross: 0,
        cross_spent: 0,
        choose: 0,
    };
    /// All that is left.
    pub const ALL: Pace = Pace {
        come: 100,
        cross: 100,
        cross_spent: 100,
        choose: 100,
    };
    /// All that can come before a crossing.
    pub const UNCROSSED: Pace = Pace {
        come: 100,
        cross: 0,
        cross_spent: 0,
        choose: 100,
    };
    /// No cue and no level; but every crossing and every choice that can come without one.
    pub const NO_ARRIVALS: Pace = Pace {
        come: 0,
        cross: 0,
        cross_spent: 100,
        choose: 100,
    };

    /// Any pace.
    pub fn any(random: &mut Random) -> Self {
        let come = random.pick(&[0, 10, 50, 90, 100]);
        let cross = random.pick(&[0, 10, 50, 90, 100]);
        Pace {
            come,
            cross,
            cross_spent: cross,
            choose: random.pick(&[0, 50, 90, 100]),
        }
    }

    /// Little by little: a stream comes in many slices, and crosses when its first part has come.
    pub fn gentle(random: &mut Random) -> Self {
        Pace {
            come: random.pick(&[5, 10, 20, 40, 70]),
            cross: random.pick(&[0, 2, 5, 10]),
            cross_spent: random.pick(&[40, 80, 100]),
            choose: random.pick(&[0, 10, 20, 40, 60]),
        }
    }
}

/// A slice of the type with this tree, mostly at any pace.
pub fn slice_of(random: &mut Random, tree: &[u8]) -> Come {
    let pace = match random.below(10) {
        0 => return little_of(random, tree),
        1 => Pace::NO_ARRIVALS,
        _ => Pace::any(random),
    };
    slice_at(random, pace, tree)
}

/// A slice of the type with this tree that brings nothing, or one thing.
pub fn little_of(random: &mut Random, tree: &[u8]) -> Come {
    if random.chance(40) {
        slice_at(random, Pace::NOTHING, tree)
    } else {
        one_arrival(random, tree)
    }
}

/// A slice of the type with this tree that brings all that can come.
pub fn all_of(random: &mut Random, tree: &[u8]) -> Come {
    slice_at(random, Pace::ALL, tree)
}

/// A slice of the type with this tree, at this pace.
pub fn slice_at(random: &mut Random, pace: Pace, tree: &[u8]) -> Come {
    written(random, Coming::AtPace(pace), tree).come
}

/// A slice of the type with this tree that differs from the empty one in one thing: a cue, a level,
/// a crossing or a choice. Often it is the last that could come. Where nothing can it is the empty
/// slice.
pub fn one_arrival(random: &mut Random, tree: &[u8]) -> Come {
    let could = written(random, Coming::Only(usize::MAX), tree).could;
    let any = random.below(could);
    let last = could.saturating_sub(1);
    let before = random.pick(&[any, any, last]);
    written(random, Coming::Only(before), tree).come
}

/// The value of a level: one at an end of what its bytes can say, one whose bytes are kinds of
/// slices, those of arrivals above all, or any.
pub fn value(random: &mut Random) -> u16 {
    let come = [slice_kind::CUE_COME, slice_kind::LEVEL_COME];
    match random.below(5) {
        0..=1 => random.pick(&[0, 0, 1, 255, 256, 65_535]),
        2 => u16::from_be_bytes([random.pick(&come), random.pick(&come)]),
        3 => u16::from_be_bytes([SLICE_KINDS.listed(random), SLICE_KINDS.listed(random)]),
        _ => random.number() as u16,
    }
}

fn written<'a>(random: &'a mut Random, coming: Coming, tree: &'a [u8]) -> Writer<'a> {
    let mut writer = Writer {
        random,
        coming,
        could: 0,
        tree,
        at: 0,
        come: Come {
            slice: Vec::new(),
            left: Vec::new(),
        },
    };
    writer.write(false);
    writer
}

/// Which of the things that could come do.
#[derive(Clone, Copy, Debug)]
enum Coming {
    /// Each by chance.
    AtPace(Pace),
    /// The one that has so many before it, and nothing else.
    Only(usize),
}

/// Walks a type once, from left to right.
struct Writer<'a> {
    random: &'a mut Random,
    coming: Coming,
    /// How many things could have come so far.
    could: usize,
    tree: &'a [u8],
    at: usize,
    come: Come,
}

impl Writer<'_> {
    /// Whether the next of the things that could come does. At a pace it has this chance.
    fn comes(&mut self, chance: fn(Pace) -> usize) -> bool {
        self.could += 1;
        match self.coming {
            Coming::AtPace(pace) => self.random.chance(chance(pace)),
            Coming::Only(before) => self.could - 1 == before,
        }
    }

    /// Writes a slice of the type at hand, a complete one if it has to be.
    fn write(&mut self, complete: bool) {
        let kind = self.tree[self.at];
        self.at += 1;
        match kind {
            type_kind::SEQUENCE if complete || self.crosses() => self.crossed(complete),
            type_kind::SEQUENCE => self.in_first(),
            type_kind::BESIDE => {
                self.come.slice.push(slice_kind::BESIDE);
                self.come.left.push(type_kind::BESIDE);
                self.write(complete);
                self.write(complete);
            }
            type_kind::EITHER if complete || self.comes(|pace| pace.choose) => {
                self.chosen(complete);
            }
            type_kind::EITHER => self.none_chosen(),
            type_kind::EMPTY => self.leaf(&[slice_kind::NOTHING], kind),
            leaf if complete || self.comes(|pace| pace.come) => self.leaf_come(leaf),
            type_kind::CUE => self.leaf(&[slice_kind::CUE_AWAITED], kind),
            _ => self.leaf(&[slice_kind::LEVEL_AWAITED], kind),
        }
    }

    /// Whether the sequence at hand is crossed, though it need not be.
    fn crosses(&mut self) -> bool {
        let first = &self.tree[self.at..type_end(self.tree, self.at)];
        let spent =
            (first.iter()).all(|kind| matches!(*kind, type_kind::EMPTY | type_kind::BESIDE));
        match self.coming {
            _ if spent => self.comes(|pace| pace.cross_spent),
            Coming::AtPace(pace) => self.random.chance(pace.cross),
            // With this crossing more than one thing would come.
            Coming::Only(_) => false,
        }
    }

    fn leaf(&mut self, slice: &[u8], left: u8) {
        self.come.slice.extend_from_slice(slice);
        self.come.left.push(left);
    }

    fn leaf_come(&mut self, leaf: u8) {
        if leaf == type_kind::CUE {
            self.leaf(&[slice_kind::CUE_COME], type_kind::EMPTY);
        } else {
            let [high, low] = value(self.random).to_be_bytes();
            self.leaf(&[slice_kind::LEVEL_COME, high, low], type_kind::EMPTY);
        }
    }

    fn in_first(&mut self) {
        self.come.slice.push(slice_kind::IN_FIRST);
        self.come.left.push(type_kind::SEQUENCE);
        self.write(false);
        self.leave_type();
    }

    /// All of the type at hand is left.
    fn leave_type(&mut self) {
        let begin = self.at;
        self.skip_type();
        self.come.left.extend_from_slice(&self.tree[begin..self.at]);
    }

    fn skip_type(&mut self) {
        self.at = type_end(self.tree, self.at);
    }

    fn none_chosen(&mut self) {
        self.leaf(&[slice_kind::NONE_CHOSEN], type_kind::EITHER);
        self.leave_type();
        self.leave_type();
    }

    /// The part that is not chosen is gone.
    fn chosen(&mut self, complete: bool) {
        if self.random.chance(50) {
            self.come.slice.push(slice_kind::FIRST_CHOSEN);
            self.write(complete);
            self.skip_type();
        } else {
            self.come.slice.push(slice_kind::SECOND_CHOSEN);
            self.skip_type();
            self.write(complete);
        }
    }

    fn crossed(&mut self, complete: bool) {
        self.come.slice.push(slice_kind::CROSSED);
        let before = self.come.left.len();
        self.write(true);
        self.come.left.truncate(before);
        self.write(complete);
    }
}
