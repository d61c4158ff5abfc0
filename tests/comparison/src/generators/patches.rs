//! Random patches, grown from an input type: each node fits the type that comes to it, and what it
//! gives goes to the next. Nearly all are accepted. In a few a node inside does not fit, the nodes
//! of a choose give different types, or a type grows too large.

use second_interpreter::{output_type, patch_file, Node, Type};

use crate::formats::kinds::node_kind::{
    BOTH, CHAIN, CHOOSE, CUE, FIRST, FRONT, LEFT, LEVEL, MARK_FIRST, MARK_SECOND, PASS,
    REGROUP_LEFT, REGROUP_RIGHT, RIGHT, SECOND, SILENT, SPREAD, THEN,
};
use crate::formats::trees::type_of;
use crate::generators::random::Random;
use crate::generators::slices::value;
use crate::generators::totals::any_totals;
use crate::generators::types::{self, write_type, Shape};

/// A patch of 63 nodes has so many forks.
pub const MOST_FORKS: usize = 31;

/// The kinds of nodes without parts; those among them that make no type smaller and can be taken
/// apart by others of them, and those that change when a sequence is crossed.
const LEAVES: [u8; 14] = [
    PASS,
    SILENT,
    CUE,
    LEVEL,
    LEFT,
    RIGHT,
    FIRST,
    SECOND,
    REGROUP_RIGHT,
    REGROUP_LEFT,
    SPREAD,
    FRONT,
    MARK_FIRST,
    MARK_SECOND,
];
const KEEPING: [u8; 5] = [PASS, REGROUP_RIGHT, REGROUP_LEFT, SPREAD, FRONT];
const CHANGING: [u8; 5] = [FIRST, SECOND, REGROUP_RIGHT, REGROUP_LEFT, SPREAD];
/// Those that wait for an arrival.
const WAITING: [u8; 2] = [CUE, LEVEL];

/// So many kinds are tried at a leaf before one is taken that fits everywhere.
const TRIES: usize = 8;

/// What the nodes of one patch are like; the chances are in a hundred.
#[derive(Clone, Copy, Debug)]
struct Style {
    shape: Shape,
    chooses: usize,
    chains: usize,
    thens: usize,
    waiting: usize,
    keeping: usize,
    changing: usize,
    misfits: usize,
    /// Whether a type may grow past its limit.
    boundless: bool,
}

impl Style {
    fn any(random: &mut Random) -> Self {
        Style {
            shape: random.pick(&Shape::ALL),
            chooses: random.pick(&[0, 50, 90]),
            chains: random.pick(&[10, 40, 80, 100]),
            thens: random.pick(&[20, 50, 90]),
            waiting: random.pick(&[0, 0, 0, 50]),
            keeping: random.pick(&[0, 50, 90]),
            changing: 0,
            misfits: random.pick(&[0, 0, 0, 0, 0, 0, 0, 3]),
            boundless: random.chance(4),
        }
    }

    /// Many nodes that change when a sequence is crossed.
    fn crossing(random: &mut Random) -> Self {
        Style {
            shape: random.pick(&Shape::ALL),
            chooses: 90,
            chains: random.pick(&[20, 50]),
            thens: 90,
            waiting: random.pick(&[0, 0, 20, 50]),
            keeping: random.pick(&[0, 30, 70]),
            changing: random.pick(&[50, 70]),
            misfits: 0,
            boundless: false,
        }
    }

    /// Nodes that mostly send all that comes.
    fn passing(random: &mut Random) -> Self {
        Style {
            waiting: 0,
            keeping: 100,
            changing: 0,
            ..Style::crossing(random)
        }
    }
}

/// A node, and the type that it gives.
pub(super) struct Grown {
    pub(super) node: Node,
    pub(super) gives: Type,
}

/// A patch file, most often one that is accepted.
pub fn any_patch(random: &mut Random) -> Vec<u8> {
    let forks = node_forks(random);
    patch_of(random, forks)
}

/// A patch file on a stream in which much follows one another, often with choices: for runs, in
/// which it is crossed again and again.
pub fn crossing_patch(random: &mut Random) -> Vec<u8> {
    let style = if random.chance(30) {
        types::Style::choosing(random)
    } else {
        types::Style::following(random)
    };
    let forks = match random.below(10) {
        0..=5 => random.between(2, 12),
        6..=8 => random.between(8, 40),
        _ => random.between(40, types::MOST_FORKS),
    };
    let input = a_type(random, &style, forks);
    let forks = match random.below(4) {
        0..=2 => random.below(12),
        _ => node_forks(random),
    };
    let style = Style::crossing(random);
    grown(random, style, &input, forks)
}

/// A patch file on a stream of as many cues and levels as there can be; mostly it sends all of them.
pub fn full_patch(random: &mut Random) -> Vec<u8> {
    let style = types::Style::full(random);
    let input = a_type(random, &style, types::MOST_FORKS);
    let style = Style::passing(random);
    let forks = random.below(3);
    grown(random, style, &input, forks)
}

/// A patch file in which a cue or a level is behind a node of any kind, or under one: of few nodes,
/// so that what they wait for comes.
pub fn waiting_patch(random: &mut Random) -> Vec<u8> {
    let style = Style::crossing(random);
    let (input, root) = Grower { random, style }.waiting();
    patch_file(&input, &root.node, any_totals(random))
}

/// A patch file with so many forks among its nodes, and one leaf more than that.
pub fn patch_of(random: &mut Random, forks: usize) -> Vec<u8> {
    let input = any_type(random);
    let style = Style::any(random);
    grown(random, style, &input, forks)
}

fn grown(random: &mut Random, style: Style, input: &Type, forks: usize) -> Vec<u8> {
    let mut grower = Grower { random, style };
    let root = grower.grow(input, forks, Type::LIMIT);
    patch_file(input, &root.node, any_totals(random))
}

/// How many forks the next patch has: mostly few, often as many as the limit allows.
fn node_forks(random: &mut Random) -> usize {
    match random.below(20) {
        0..=6 => random.below(5),
        7..=12 => random.below(16),
        13..=16 => random.below(MOST_FORKS + 1),
        17 => MOST_FORKS - 1,
        _ => MOST_FORKS,
    }
}

/// How many forks an input type has. Every node of a patch may copy it, so large ones are seldom.
fn type_forks(random: &mut Random) -> usize {
    match random.below(20) {
        0..=11 => random.below(6),
        12..=16 => random.below(32),
        17..=18 => random.below(types::MOST_FORKS + 1),
        _ => types::MOST_FORKS,
    }
}

fn any_type(random: &mut Random) -> Type {
    let style = types::Style::any(random);
    let forks = type_forks(random);
    a_type(random, &style, forks)
}

pub(super) fn a_type(random: &mut Random, style: &types::Style, forks: usize) -> Type {
    let mut tree = Vec::new();
    write_type(random, style, forks, &mut tree);
    type_of(&tree)
}

/// How many forks a carried type has, of at most so many: mostly few, often the most.
fn carried_forks(random: &mut Random, most: usize) -> usize {
    let any = random.below(most + 1);
    random.pick(&[0, 1, 2, any, most]).min(most)
}

/// A nullable type with so many forks.
fn nullable(random: &mut Random, shape: Shape, forks: usize) -> Type {
    if forks == 0 {
        return Type::Empty;
    }
    let first = shape.in_first(random, forks - 1);
    let left = nullable(random, shape, first);
    Type::beside(left, nullable(random, shape, forks - 1 - first))
}

pub(super) struct Grower<'a> {
    pub(super) random: &'a mut Random,
    style: Style,
}

impl Grower<'_> {
    /// A node that fits the input, with about so many forks and not more. What it gives has at most
    /// `room` nodes.
    pub(super) fn grow(&mut self, input: &Type, forks: usize, room: usize) -> Grown {
        if forks == 0 {
            return self.leaf(input, room);
        }
        let first = self.style.shape.in_first(self.random, forks - 1);
        let kind = self.fork(input, room);
        self.grow_fork(kind, input, [first, forks - 1 - first], room)
    }

    /// A fork of this kind, with so many forks in each of its parts. Where the kind does not fit it
    /// is both.
    pub(super) fn grow_fork(
        &mut self,
        kind: u8,
        input: &Type,
        forks: [usize; 2],
        room: usize,
    ) -> Grown {
        match (kind, input) {
            (CHAIN, _) => {
                let one = self.grow(input, forks[0], Type::LIMIT);
                let other = self.grow(&one.gives, forks[1], room);
                Grown {
                    node: Node::chain(one.node, other.node),
                    gives: other.gives,
                }
            }
            (THEN, Type::Sequence(first, second)) => {
                let [one, other] = self.grow_parts([first, second], forks, room);
                Grown {
                    node: Node::then(one.node, other.node),
                    gives: Type::sequence(one.gives, other.gives),
                }
            }
            (CHOOSE, Type::Either(first, second)) => self.choose([first, second], forks, room),
            _ => {
                let [one, other] = self.grow_parts([input, input], forks, room);
                Grown {
                    node: Node::both(one.node, other.node),
                    gives: Type::beside(one.gives, other.gives),
                }
            }
        }
    }

    /// The kind of a fork; two parts side by side or in sequence need three nodes of room.
    fn fork(&mut self, input: &Type, room: usize) -> u8 {
        match input {
            Type::Either(..) if self.random.chance(self.style.chooses) => CHOOSE,
            _ if room < 3 || self.random.chance(self.style.chains) => CHAIN,
            Type::Sequence(..) if self.random.chance(self.style.thens) => THEN,
            _ => BOTH,
        }
    }

    /// Two nodes to one type: the type that the first gives, if the second can be brought to it, or
    /// else one that both can.
    fn choose(&mut self, inputs: [&Type; 2], forks: [usize; 2], room: usize) -> Grown {
        // The fork kept back is there to bring the first node to another type.
        let spare = usize::from(forks[0] > 0);
        let one = self.grow(inputs[0], forks[0] - spare, room);
        let other = if self.random.chance(self.style.misfits) {
            Some(self.grow(inputs[1], forks[1], room).node)
        } else {
            self.reach(inputs[1], &one.gives, forks[1] + spare)
        };
        if let Some(other) = other {
            return Grown {
                node: Node::choose(one.node, other),
                gives: one.gives,
            };
        }
        let [end, other_end] = self.for_any_input(room);
        let gives = output_type(&end, inputs[0]).expect("it takes every type");
        let one = if spare == 0 {
            end
        } else {
            Node::chain(one.node, end)
        };
        Grown {
            node: Node::choose(one, self.ending(inputs[1], other_end, forks[1])),
            gives,
        }
    }

    /// Two nodes that take every type and give the same one.
    fn for_any_input(&mut self, room: usize) -> [Node; 2] {
        let kind = self.random.pick(&[CUE, LEVEL, SILENT]);
        let one = self.leaf_of(kind, &Type::Cue, room);
        let other = match kind {
            LEVEL => self.leaf_of(LEVEL, &Type::Cue, room),
            _ => one.clone(),
        };
        [one, other]
    }

    /// Two nodes that give, with a fork above what they give, at most `room` nodes.
    fn grow_parts(&mut self, inputs: [&Type; 2], forks: [usize; 2], room: usize) -> [Grown; 2] {
        let share = room * (forks[0] + 1) / (forks[0] + forks[1] + 2);
        let most = room - 2;
        let any = self.random.between(1, most);
        let first = self.random.pick(&[share, most, any]).clamp(1, most);
        let one = self.grow(inputs[0], forks[0], first);
        let rest = if self.style.boundless {
            room
        } else {
            room.saturating_sub(1 + one.gives.size()).max(1)
        };
        let other = self.grow(inputs[1], forks[1], rest);
        [one, other]
    }

    fn leaf(&mut self, input: &Type, room: usize) -> Grown {
        if self.random.chance(self.style.misfits) {
            return self.misfit(input);
        }
        for _ in 0..TRIES {
            let kind = self.leaf_kind();
            let node = self.leaf_of(kind, input, room);
            match output_type(&node, input) {
                Ok(gives) if gives.size() <= room => return Grown { node, gives },
                _ => {}
            }
        }
        Grown {
            node: Node::Cue,
            gives: Type::Cue,
        }
    }

    fn leaf_kind(&mut self) -> u8 {
        let kinds: &[u8] = if self.random.chance(self.style.waiting) {
            &WAITING
        } else if self.random.chance(self.style.changing) {
            &CHANGING
        } else if self.random.chance(self.style.keeping) {
            &KEEPING
        } else {
            &LEAVES
        };
        self.random.pick(kinds)
    }

    /// A node of this kind, which need not fit. What it carries leaves it room, if there is any.
    pub(super) fn leaf_of(&mut self, kind: u8, input: &Type, room: usize) -> Node {
        match kind {
            PASS => Node::Pass,
            SILENT => Node::silent(self.carried(room)),
            CUE => Node::Cue,
            LEVEL => Node::Level(value(self.random)),
            LEFT => Node::Left,
            RIGHT => Node::Right,
            FIRST => Node::First,
            SECOND => Node::Second,
            REGROUP_RIGHT => Node::RegroupRight,
            REGROUP_LEFT => Node::RegroupLeft,
            SPREAD => Node::Spread,
            FRONT => Node::Front,
            MARK_FIRST => Node::MarkFirst(self.unchosen(input, room)),
            _ => Node::MarkSecond(self.unchosen(input, room)),
        }
    }

    /// A nullable type: mostly small, often as large as there is room.
    fn carried(&mut self, room: usize) -> Type {
        let forks = carried_forks(self.random, (room - 1) / 2);
        nullable(self.random, self.style.shape, forks)
    }

    /// The type of the part that is not chosen: mostly small, often as large as there is room.
    fn unchosen(&mut self, input: &Type, room: usize) -> Type {
        let most = room.saturating_sub(2 + input.size()) / 2;
        let forks = carried_forks(self.random, most);
        let style = types::Style::any(self.random);
        a_type(self.random, &style, forks)
    }

    /// A node that the second pass refuses, or nearly: any kind, and any type that it carries.
    fn misfit(&mut self, input: &Type) -> Grown {
        let kind = self.random.pick(&LEAVES);
        let node = match kind {
            SILENT => Node::silent(any_type(self.random)),
            MARK_FIRST => Node::MarkFirst(any_type(self.random)),
            MARK_SECOND => Node::MarkSecond(any_type(self.random)),
            _ => self.leaf_of(kind, input, Type::LIMIT),
        };
        let gives = output_type(&node, input).unwrap_or(Type::Cue);
        Grown { node, gives }
    }
}
