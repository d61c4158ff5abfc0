//! Random types, slices and patches from a deterministic generator.

use second_interpreter::{output_type, Node, Slice, Totals, Type};

/// Marsaglia's xorshift with 64 bits.
pub struct Random(u64);

impl Random {
    /// A generator; the seed must not be zero.
    pub fn new(seed: u64) -> Self {
        assert_ne!(seed, 0);
        Random(seed)
    }

    /// The next 64 bits.
    pub fn next(&mut self) -> u64 {
        self.0 ^= self.0 << 13;
        self.0 ^= self.0 >> 7;
        self.0 ^= self.0 << 17;
        self.0
    }

    /// A number below the bound.
    pub fn below(&mut self, bound: usize) -> usize {
        ((self.next() >> 11) % bound as u64) as usize
    }

    /// True once in so many times.
    pub fn once_in(&mut self, times: usize) -> bool {
        self.below(times) == 0
    }

    /// Any byte.
    pub fn byte(&mut self) -> u8 {
        self.below(256) as u8
    }

    /// A level's value, often one at the ends of a byte.
    pub fn value(&mut self) -> u16 {
        match self.below(4) {
            0 => 0,
            1 => u16::MAX,
            2 => 255,
            _ => self.below(65_536) as u16,
        }
    }
}

/// Two sizes for the parts of a tree with at most so many nodes.
fn split(random: &mut Random, nodes: usize) -> (usize, usize) {
    let first = 1 + random.below(nodes - 2);
    (first, nodes - 1 - first)
}

/// A type of at most so many nodes.
pub fn random_type(random: &mut Random, nodes: usize) -> Type {
    if nodes < 3 || random.once_in(8) {
        return match random.below(5) {
            0 => Type::Empty,
            1 | 2 => Type::Cue,
            _ => Type::Level,
        };
    }
    let (one, other) = split(random, nodes);
    let one = random_type(random, one);
    let other = random_type(random, other);
    match random.below(10) {
        0..=4 => Type::sequence(one, other),
        5..=7 => Type::beside(one, other),
        // Equal parts, of which choose can make one output type with ease.
        8 if 2 * one.size() < nodes => Type::either(one.clone(), one),
        _ => Type::either(one, other),
    }
}

/// A type of exactly so many nodes, an odd number, whose two-part kinds are either
/// about so many times in eight.
pub fn full_type(random: &mut Random, nodes: usize, eithers: usize) -> Type {
    if nodes == 1 {
        return [Type::Empty, Type::Cue, Type::Level][random.below(3)].clone();
    }
    let first = 1 + 2 * random.below(nodes / 2);
    let one = full_type(random, first, eithers);
    let other = full_type(random, nodes - 1 - first, eithers);
    if random.below(8) < eithers {
        Type::either(one, other)
    } else if random.once_in(2) {
        Type::sequence(one, other)
    } else {
        Type::beside(one, other)
    }
}

/// A nullable type of at most so many nodes.
fn random_nullable(random: &mut Random, nodes: usize) -> Type {
    if nodes < 3 || random.once_in(3) {
        return Type::Empty;
    }
    let (one, other) = split(random, nodes);
    Type::beside(random_nullable(random, one), random_nullable(random, other))
}

/// A slice of the type, which crosses and brings more the higher `progress` is,
/// from 0 to 8.
pub fn random_slice(random: &mut Random, stream: &Type, progress: usize) -> Slice {
    let comes = random.below(8) < progress;
    match stream {
        Type::Empty => Slice::Empty,
        Type::Cue if comes => Slice::CueCome,
        Type::Cue => Slice::CueNotYet,
        Type::Level if comes => Slice::LevelCome(random.value()),
        Type::Level => Slice::LevelNotYet,
        Type::Sequence(first, second) if comes => {
            let first = random_slice(random, first, 8);
            Slice::crossed(first, random_slice(random, second, progress))
        }
        Type::Sequence(first, _) => Slice::uncrossed(random_slice(random, first, progress)),
        Type::Beside(left, right) => {
            let left = random_slice(random, left, progress);
            Slice::beside(left, random_slice(random, right, progress))
        }
        Type::Either(..) if !comes => Slice::NoneChosen,
        Type::Either(first, second) => {
            if random.once_in(2) {
                Slice::first_chosen(random_slice(random, first, progress))
            } else {
                Slice::second_chosen(random_slice(random, second, progress))
            }
        }
    }
}

/// Totals to which any slice and output can be added 60,000 times and more, often at
/// the end of a byte.
pub fn random_totals(random: &mut Random) -> Totals {
    let mut total = || match random.below(4) {
        0 => 0,
        1 => [255, 65_535, 16_777_215][random.below(3)],
        _ => random.below(4_280_000_000) as u32,
    };
    Totals {
        arrived: total(),
        sent: total(),
    }
}

/// Totals of which each is often so near the limit that a few feeds reach it.
pub fn nearly_full_totals(random: &mut Random) -> Totals {
    let mut totals = random_totals(random);
    for total in [&mut totals.arrived, &mut totals.sent] {
        if random.once_in(2) {
            *total = u32::MAX - random.below(6) as u32;
        }
    }
    totals
}

/// A node that takes the type, of at most so many nodes.
pub fn random_node(random: &mut Random, input: &Type, nodes: usize) -> Node {
    for _ in 0..20 {
        if let Some(node) = try_node(random, input, nodes) {
            if output_type(&node, input).is_ok() {
                return node;
            }
        }
    }
    Node::Pass
}

/// A node of a random kind, or none if the kind does not suit.
fn try_node(random: &mut Random, input: &Type, nodes: usize) -> Option<Node> {
    if nodes >= 3 && !random.once_in(6) {
        return try_two_parts(random, input, nodes);
    }
    if random.once_in(6) {
        return Some(random_opening(random));
    }
    if !random.once_in(4) {
        return Some(suited(random, input));
    }
    Some(match random.below(5) {
        0 => Node::Pass,
        1 => Node::silent(random_nullable(random, 9)),
        2 => Node::Front,
        3 => Node::MarkFirst(random_type(random, 9)),
        _ => Node::MarkSecond(random_type(random, 9)),
    })
}

/// A node 2 or 3. They are wanted in many places, since which slices keep one waiting
/// depends on where it is.
fn random_opening(random: &mut Random) -> Node {
    if random.once_in(2) {
        Node::Cue
    } else {
        Node::Level(random.value())
    }
}

/// One of the kinds that ask for a shape, or pass if the type suits none.
fn suited(random: &mut Random, input: &Type) -> Node {
    let mut nodes = vec![
        Node::Left,
        Node::Right,
        Node::First,
        Node::Second,
        Node::RegroupRight,
        Node::RegroupLeft,
        Node::Spread,
    ];
    nodes.retain(|node| output_type(node, input).is_ok());
    if nodes.len() > 2 && !random.once_in(4) {
        // Those that keep the whole stream, so that more can follow them.
        nodes.drain(..2);
    }
    if nodes.is_empty() {
        return Node::Pass;
    }
    let place = random.below(nodes.len());
    nodes.swap_remove(place)
}

/// A two-part kind with parts that take their inputs.
fn try_two_parts(random: &mut Random, input: &Type, nodes: usize) -> Option<Node> {
    let (one, other) = split(random, nodes);
    if input.either_parts().is_some() && !random.once_in(3) {
        return try_choose(random, input, nodes);
    }
    match random.below(5) {
        0 => {
            let first = random_node(random, input, one);
            Some(Node::both(first, random_node(random, input, other)))
        }
        1 | 2 => {
            let (s, t) = input.sequence_parts()?;
            let first = random_node(random, s, one);
            Some(Node::then(first, random_node(random, t, other)))
        }
        _ => {
            let first = random_node(random, input, one);
            if random.once_in(5) {
                return Some(Node::chain(first, random_opening(random)));
            }
            let between = output_type(&first, input).ok()?;
            Some(Node::chain(first, random_node(random, &between, other)))
        }
    }
}

/// A choose: a random node for one part, and one to the same type for the other.
fn try_choose(random: &mut Random, input: &Type, nodes: usize) -> Option<Node> {
    let (s, t) = input.either_parts()?;
    let free = 1 + random.below(nodes - 2);
    let node = if random.once_in(2) {
        let first = random_node(random, s, free);
        let wanted = output_type(&first, s).ok()?;
        Node::choose(first, node_giving(random, t, &wanted))
    } else {
        let second = random_node(random, t, free);
        let wanted = output_type(&second, t).ok()?;
        Node::choose(node_giving(random, s, &wanted), second)
    };
    (node.count() <= nodes).then_some(node)
}

/// A node from the input type to the wanted one, of any number of nodes.
fn node_giving(random: &mut Random, input: &Type, wanted: &Type) -> Node {
    let suited = suited(random, input);
    if output_type(&suited, input).as_ref() == Ok(wanted) {
        return suited;
    }
    match wanted {
        _ if input == wanted => Node::Pass,
        _ if wanted.is_nullable() => Node::silent(wanted.clone()),
        Type::Empty => Node::silent(Type::Empty),
        Type::Cue => Node::Cue,
        Type::Level => Node::Level(random.value()),
        Type::Sequence(s, t) => {
            let first = node_giving(random, &Type::Empty, s);
            let second = node_giving(random, input, t);
            Node::chain(Node::Front, Node::then(first, second))
        }
        Type::Beside(s, t) => {
            let left = node_giving(random, input, s);
            Node::both(left, node_giving(random, input, t))
        }
        Type::Either(s, t) if random.once_in(2) => Node::chain(
            node_giving(random, input, s),
            Node::MarkFirst((**t).clone()),
        ),
        Type::Either(s, t) => Node::chain(
            node_giving(random, input, t),
            Node::MarkSecond((**s).clone()),
        ),
    }
}

/// A file with some bytes changed, taken away or put in.
pub fn damaged(random: &mut Random, file: &[u8]) -> Vec<u8> {
    let mut bytes = file.to_vec();
    for _ in 0..=random.below(3) {
        let place = random.below(bytes.len() + 1);
        let byte = if random.once_in(4) {
            random.byte()
        } else {
            random.below(19) as u8
        };
        match random.below(5) {
            0 => bytes.truncate(place),
            1 => bytes.insert(place, byte),
            2 if place < bytes.len() => drop(bytes.remove(place)),
            _ if place < bytes.len() => bytes[place] = byte,
            _ => bytes.push(byte),
        }
    }
    bytes
}
