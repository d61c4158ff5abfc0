//! Files: sections and the trees in them, read with the number of the first
//! fault, and written.
//!
//! No reader goes deeper than its tree has nodes, and a tree is given up at its
//! limit, so bytes of any length are read in bounded depth. Nothing is set
//! aside for a count; a section only borrows the bytes that are there.

use crate::nodes::Node;
use crate::numbers::{
    Number, CUT_SHORT, LEFT_OVER, SLICE_CUT_SHORT, SLICE_LEFT_OVER, SLICE_MISPLACED_KIND,
    SLICE_UNLISTED_KIND, TOO_MANY_NODES, TYPE_TOO_LARGE, UNLISTED_KIND,
};
use crate::slices::Slice;
use crate::totals::Totals;
use crate::types::Type;

/// The numbers that a kind of file gives for the faults all files share.
#[derive(Clone, Copy)]
struct Faults {
    cut_short: Number,
    unlisted_kind: Number,
    left_over: Number,
}

/// Type and patch files: "1 to 4 as above", of which 1, 2 and 3 are here.
const TYPE_AND_PATCH_FAULTS: Faults = Faults {
    cut_short: CUT_SHORT,
    unlisted_kind: UNLISTED_KIND,
    left_over: LEFT_OVER,
};

/// Slice files: "11 cut short, 12 ..., 13 bytes left over. Same manner of
/// reading"; "12 is now an unlisted kind".
const SLICE_FAULTS: Faults = Faults {
    cut_short: SLICE_CUT_SHORT,
    unlisted_kind: SLICE_UNLISTED_KIND,
    left_over: SLICE_LEFT_OVER,
};

/// The bytes not yet read, of a file or of one of its sections.
struct Reader<'a> {
    rest: &'a [u8],
    faults: Faults,
}

impl<'a> Reader<'a> {
    fn new(bytes: &'a [u8], faults: Faults) -> Self {
        Reader {
            rest: bytes,
            faults,
        }
    }

    /// The next byte; cut short if there is none.
    fn byte(&mut self) -> Result<u8, Number> {
        let (&byte, rest) = self.rest.split_first().ok_or(self.faults.cut_short)?;
        self.rest = rest;
        Ok(byte)
    }

    /// "A number of two bytes has its high byte first."
    fn two_bytes(&mut self) -> Result<u16, Number> {
        let high = self.byte()?;
        let low = self.byte()?;
        Ok(u16::from_be_bytes([high, low]))
    }

    /// M-105: "four bytes each, high byte first".
    fn four_bytes(&mut self) -> Result<u32, Number> {
        let high = self.two_bytes()?;
        let low = self.two_bytes()?;
        Ok(u32::from(high) << 16 | u32::from(low))
    }

    /// "A *section* is a two-byte count and then that many bytes." Cut short if
    /// it is "longer than the bytes remain", the count itself included: "a
    /// section's length is tried before its contents".
    fn section(&mut self) -> Result<Reader<'a>, Number> {
        let count = usize::from(self.two_bytes()?);
        if count > self.rest.len() {
            return Err(self.faults.cut_short);
        }
        let (contents, rest) = self.rest.split_at(count);
        self.rest = rest;
        Ok(Reader::new(contents, self.faults))
    }

    /// "3: bytes after a whole tree in its section, or after the last section";
    /// for slices "13 bytes left over".
    fn end(&self) -> Result<(), Number> {
        if self.rest.is_empty() {
            Ok(())
        } else {
            Err(self.faults.left_over)
        }
    }
}

/// "A type file is one section."
pub(crate) fn read_type_file(file: &[u8]) -> Result<Type, Number> {
    let mut file = Reader::new(file, TYPE_AND_PATCH_FAULTS);
    let stream = read_type_section(&mut file)?;
    file.end()?;
    Ok(stream)
}

/// "a patch file is two, the input type and then the nodes", and since M-105 "gets a
/// third section"; "the type section ends before the next begins", and so do the nodes.
pub(crate) fn read_patch_file(file: &[u8]) -> Result<(Type, Node, Totals), Number> {
    let mut file = Reader::new(file, TYPE_AND_PATCH_FAULTS);
    let input = read_type_section(&mut file)?;
    let node = read_node_section(&mut file)?;
    let totals = read_totals_section(&mut file)?;
    file.end()?;
    Ok((input, node, totals))
}

/// "a slice file is one section", here of a slice of the given type.
pub(crate) fn read_slice_file(file: &[u8], stream: &Type) -> Result<Slice, Number> {
    let mut file = Reader::new(file, SLICE_FAULTS);
    let mut section = file.section()?;
    let slice = read_slice(&mut section, stream, Owed::Any)?;
    section.end()?;
    file.end()?;
    Ok(slice)
}

/// A section with one type in it.
fn read_type_section(file: &mut Reader) -> Result<Type, Number> {
    let mut section = file.section()?;
    let stream = read_type(&mut section, &mut 0)?;
    section.end()?;
    Ok(stream)
}

/// A section with the nodes of a patch.
fn read_node_section(file: &mut Reader) -> Result<Node, Number> {
    let mut section = file.section()?;
    let node = read_node(&mut section, &mut 0)?;
    section.end()?;
    Ok(node)
}

/// M-105: "a third section of eight bytes: arrived, then sent ... A whole section of
/// another length is 1 if shorter, 3 if longer." These are the numbers of a section
/// that ends before what is read in it or goes on behind it, so it is read as such.
fn read_totals_section(file: &mut Reader) -> Result<Totals, Number> {
    let mut section = file.section()?;
    let arrived = section.four_bytes()?;
    let sent = section.four_bytes()?;
    section.end()?;
    Ok(Totals { arrived, sent })
}

/// A type in preorder; `nodes` counts those of its tree that are already read.
/// "4: a type needs a 256th node. ... When one is needed, 4 or 5 comes before
/// 1, and 1 before 2."
fn read_type(section: &mut Reader, nodes: &mut usize) -> Result<Type, Number> {
    if *nodes == Type::LIMIT {
        return Err(TYPE_TOO_LARGE);
    }
    *nodes += 1;
    match section.byte()? {
        0 => Ok(Type::Empty),
        1 => Ok(Type::Cue),
        2 => Ok(Type::Level),
        3 => read_two_types(section, nodes, Type::sequence),
        4 => read_two_types(section, nodes, Type::beside),
        5 => read_two_types(section, nodes, Type::either),
        _ => Err(section.faults.unlisted_kind),
    }
}

/// The parts of a two-part type, left to right.
fn read_two_types(
    section: &mut Reader,
    nodes: &mut usize,
    kind: fn(Type, Type) -> Type,
) -> Result<Type, Number> {
    let first = read_type(section, nodes)?;
    let second = read_type(section, nodes)?;
    Ok(kind(first, second))
}

/// A node in preorder; `nodes` counts those of the patch that are already read.
/// "5: a 64th node is needed", before 1 and 2 like 4. A type that a node carries
/// has a count of its own.
fn read_node(section: &mut Reader, nodes: &mut usize) -> Result<Node, Number> {
    if *nodes == Node::LIMIT {
        return Err(TOO_MANY_NODES);
    }
    *nodes += 1;
    match section.byte()? {
        0 => Ok(Node::Pass),
        1 => Ok(Node::silent(read_type(section, &mut 0)?)),
        2 => Ok(Node::Cue),
        3 => Ok(Node::Level(section.two_bytes()?)),
        4 => read_two_nodes(section, nodes, Node::both),
        5 => Ok(Node::Left),
        6 => Ok(Node::Right),
        7 => Ok(Node::First),
        8 => Ok(Node::Second),
        9 => read_two_nodes(section, nodes, Node::then),
        10 => read_two_nodes(section, nodes, Node::chain),
        11 => Ok(Node::RegroupRight),
        12 => Ok(Node::RegroupLeft),
        13 => Ok(Node::Spread),
        14 => Ok(Node::Front),
        15 => read_two_nodes(section, nodes, Node::choose),
        16 => Ok(Node::MarkFirst(read_type(section, &mut 0)?)),
        17 => Ok(Node::MarkSecond(read_type(section, &mut 0)?)),
        _ => Err(section.faults.unlisted_kind),
    }
}

/// The parts of a two-part kind, left to right.
fn read_two_nodes(
    section: &mut Reader,
    nodes: &mut usize,
    kind: fn(Node, Node) -> Node,
) -> Result<Node, Number> {
    let first = read_node(section, nodes)?;
    let second = read_node(section, nodes)?;
    Ok(kind(first, second))
}

/// What the place of a slice asks of it.
#[derive(Clone, Copy, PartialEq, Eq)]
enum Owed {
    /// Any slice of the type.
    Any,
    /// A complete one: the place is in a crossed first part.
    Complete,
}

/// The highest slice kind listed, that of M-100's "second chosen".
const HIGHEST_SLICE_KIND: u8 = 10;

/// A slice of a type. "11 cut short, 12 [an unlisted kind], 14 a kind that does
/// not belong there, which includes a kind that keeps a crossed first part from
/// being complete, as 1, 3 or 5; ... at one byte 11, 12, 14 in that order." An 8
/// keeps it from that too, and a choice "is complete when [its slice] is".
fn read_slice(section: &mut Reader, stream: &Type, owed: Owed) -> Result<Slice, Number> {
    let kind = section.byte()?;
    if kind > HIGHEST_SLICE_KIND {
        return Err(section.faults.unlisted_kind);
    }
    match (stream, kind) {
        (Type::Empty, 0) => Ok(Slice::Empty),
        (Type::Cue, 1) if owed == Owed::Any => Ok(Slice::CueNotYet),
        (Type::Cue, 2) => Ok(Slice::CueCome),
        (Type::Level, 3) if owed == Owed::Any => Ok(Slice::LevelNotYet),
        (Type::Level, 4) => Ok(Slice::LevelCome(section.two_bytes()?)),
        (Type::Sequence(s, _), 5) if owed == Owed::Any => {
            Ok(Slice::uncrossed(read_slice(section, s, Owed::Any)?))
        }
        (Type::Sequence(s, t), 6) => {
            let first = read_slice(section, s, Owed::Complete)?;
            let second = read_slice(section, t, owed)?;
            Ok(Slice::crossed(first, second))
        }
        (Type::Beside(s, t), 7) => {
            let left = read_slice(section, s, owed)?;
            let right = read_slice(section, t, owed)?;
            Ok(Slice::beside(left, right))
        }
        (Type::Either(..), 8) if owed == Owed::Any => Ok(Slice::NoneChosen),
        (Type::Either(s, _), 9) => Ok(Slice::first_chosen(read_slice(section, s, owed)?)),
        (Type::Either(_, t), 10) => Ok(Slice::second_chosen(read_slice(section, t, owed)?)),
        _ => Err(SLICE_MISPLACED_KIND),
    }
}

/// The file of a type.
pub fn type_file(stream: &Type) -> Vec<u8> {
    let mut contents = Vec::new();
    write_type(stream, &mut contents);
    section(&contents)
}

/// The file of a slice.
pub fn slice_file(slice: &Slice) -> Vec<u8> {
    let mut contents = Vec::new();
    write_slice(slice, &mut contents);
    section(&contents)
}

/// The file of a patch, from its input type, its root node and its totals.
pub fn patch_file(input: &Type, node: &Node, totals: Totals) -> Vec<u8> {
    let mut contents = Vec::new();
    write_node(node, &mut contents);
    let mut file = type_file(input);
    file.extend(section(&contents));
    file.extend(section(&totals_bytes(totals)));
    file
}

/// M-105: "eight bytes: arrived, then sent, four bytes each, high byte first".
fn totals_bytes(totals: Totals) -> Vec<u8> {
    let mut bytes = totals.arrived.to_be_bytes().to_vec();
    bytes.extend(totals.sent.to_be_bytes());
    bytes
}

/// A section with these contents. Contents too long for a count, which no tree
/// within the bounds has, get the largest count; the file is then refused.
fn section(contents: &[u8]) -> Vec<u8> {
    let count = u16::try_from(contents.len()).unwrap_or(u16::MAX);
    let mut bytes = count.to_be_bytes().to_vec();
    bytes.extend_from_slice(contents);
    bytes
}

/// "Trees are in preorder, root first, then the parts left to right."
fn write_type(stream: &Type, out: &mut Vec<u8>) {
    let (kind, parts) = match stream {
        Type::Empty => (0, None),
        Type::Cue => (1, None),
        Type::Level => (2, None),
        Type::Sequence(first, second) => (3, Some((first, second))),
        Type::Beside(left, right) => (4, Some((left, right))),
        Type::Either(first, second) => (5, Some((first, second))),
    };
    out.push(kind);
    if let Some((one, other)) = parts {
        write_type(one, out);
        write_type(other, out);
    }
}

/// A slice in preorder, a level's value after its kind.
fn write_slice(slice: &Slice, out: &mut Vec<u8>) {
    match slice {
        Slice::Empty => out.push(0),
        Slice::CueNotYet => out.push(1),
        Slice::CueCome => out.push(2),
        Slice::LevelNotYet => out.push(3),
        Slice::LevelCome(value) => {
            out.push(4);
            out.extend(value.to_be_bytes());
        }
        Slice::Uncrossed(first) => {
            out.push(5);
            write_slice(first, out);
        }
        Slice::Crossed(first, second) => {
            out.push(6);
            write_slice(first, out);
            write_slice(second, out);
        }
        Slice::Beside(left, right) => {
            out.push(7);
            write_slice(left, out);
            write_slice(right, out);
        }
        Slice::NoneChosen => out.push(8),
        Slice::FirstChosen(first) => {
            out.push(9);
            write_slice(first, out);
        }
        Slice::SecondChosen(second) => {
            out.push(10);
            write_slice(second, out);
        }
    }
}

/// A node in preorder, a carried type or value after its kind.
fn write_node(node: &Node, out: &mut Vec<u8>) {
    out.push(node_kind(node));
    match node {
        Node::Silent(carried) | Node::MarkFirst(carried) | Node::MarkSecond(carried) => {
            write_type(carried, out);
        }
        Node::Level(value) => out.extend(value.to_be_bytes()),
        Node::Both(one, other)
        | Node::Then(one, other)
        | Node::Chain(one, other)
        | Node::Choose(one, other) => {
            write_node(one, out);
            write_node(other, out);
        }
        _ => {}
    }
}

/// The kind byte of a node, by the list under "Nodes" and M-100.
fn node_kind(node: &Node) -> u8 {
    match node {
        Node::Pass => 0,
        Node::Silent(_) => 1,
        Node::Cue => 2,
        Node::Level(_) => 3,
        Node::Both(..) => 4,
        Node::Left => 5,
        Node::Right => 6,
        Node::First => 7,
        Node::Second => 8,
        Node::Then(..) => 9,
        Node::Chain(..) => 10,
        Node::RegroupRight => 11,
        Node::RegroupLeft => 12,
        Node::Spread => 13,
        Node::Front => 14,
        Node::Choose(..) => 15,
        Node::MarkFirst(_) => 16,
        Node::MarkSecond(_) => 17,
    }
}
