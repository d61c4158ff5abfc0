//! The rows of the table: one call each. Those of Check are in [`crate::patches`], those of Feed in
//! [`crate::feeds`], those of Longest in [`crate::longest`].

use comparison::calls::library;
use comparison::formats::fault::ACCEPTED;
use comparison::formats::files::{section, set_count};
use comparison::formats::kinds::type_kind::{CUE, SEQUENCE};
use comparison::Operation;

use crate::nodes::{choices, choices_then_cue, eithers};
use crate::streams::{slice_tree, type_tree, Shape, Share};
use crate::{feeds, longest, patches};

/// The nodes of the largest type.
pub const LARGEST: usize = 255;

/// The sizes, in nodes, at which a type is followed as it grows.
const SIZES: [usize; 5] = [15, 31, 63, 127, LARGEST];

/// What a row is there for.
#[derive(Clone, Copy, Debug, PartialEq, Eq)]
pub enum Group {
    /// Small, typical and largest calls.
    Legal,
    /// One shape at a growing number of nodes, up to the largest.
    Growing {
        series: &'static str,
        nodes: usize,
        largest: usize,
    },
    /// Refused calls with long files.
    Refused,
}

/// One call that is made many times.
#[derive(Clone, Debug)]
pub struct Row {
    pub group: Group,
    pub name: String,
    pub operation: Operation,
    pub files: Vec<Vec<u8>>,
}

/// The lent buffers, which every answer fits; only Feed takes the second.
#[derive(Clone, Debug, PartialEq, Eq)]
pub struct Lent {
    first: [u8; 1000],
    patch: [u8; 9000],
}

impl Lent {
    /// Buffers that hold this byte everywhere.
    pub fn holding(byte: u8) -> Self {
        Lent {
            first: [byte; 1000],
            patch: [byte; 9000],
        }
    }
}

/// What a call answers: its number, and its lengths or whether the slice is complete. Its counts are
/// left to the comparison, so that a row does what it did before there were any.
pub type Answer = (u32, [usize; 2]);

/// Which of the two is measured.
#[derive(Clone, Copy, Debug, PartialEq, Eq)]
pub enum Side {
    Library,
    Second,
}

impl Row {
    /// The row of an operation on a type and up to two slices; of these files it takes as many as
    /// it needs.
    pub fn new(group: Group, name: &str, operation: Operation, files: &[Vec<u8>]) -> Self {
        Row {
            group,
            name: name.to_string(),
            operation,
            files: files[..operation.files().len()].to_vec(),
        }
    }

    /// The bytes of all files handed in.
    pub fn input_bytes(&self) -> usize {
        self.files.iter().map(Vec::len).sum()
    }

    /// Makes the call.
    pub fn call(&self, side: Side, lent: &mut Lent) -> Answer {
        match side {
            Side::Library => self.call_library(lent),
            Side::Second => self.call_second(lent),
        }
    }

    fn call_library(&self, lent: &mut Lent) -> Answer {
        let (files, first) = (&self.files, &mut lent.first);
        let answer = match self.operation {
            Operation::Check => library::check(&files[0], first),
            Operation::Admit => {
                let answer = library::admit(&files[0], &files[1]);
                return (answer.number, [answer.complete as usize, 0]);
            }
            Operation::Left => library::left(&files[0], &files[1], first),
            Operation::Join => library::join(&files[0], &files[1], &files[2], first),
            Operation::Feed => {
                let answer = library::feed(&files[0], &files[1], first, &mut lent.patch);
                return (answer.number, [answer.output, answer.patch]);
            }
            Operation::Longest => library::longest(&files[0], first),
        };
        (answer.number, [answer.written, 0])
    }

    fn call_second(&self, lent: &mut Lent) -> Answer {
        let (files, first) = (&self.files, &mut lent.first);
        let answer = match self.operation {
            Operation::Check => second_interpreter::check(&files[0], first),
            Operation::Admit => second_interpreter::admit(&files[0], &files[1])
                .map(|admitted| usize::from(admitted.complete)),
            Operation::Left => second_interpreter::left(&files[0], &files[1], first),
            Operation::Join => second_interpreter::join(&files[0], &files[1], &files[2], first),
            Operation::Feed => {
                let fed = second_interpreter::feed(&files[0], &files[1], first, &mut lent.patch);
                return fed.map_or_else(
                    |number| (number, [0, 0]),
                    |fed| (ACCEPTED, [fed.output, fed.patch]),
                );
            }
            Operation::Longest => second_interpreter::longest(&files[0], first),
        };
        answer.map_or_else(|number| (number, [0, 0]), |value| (ACCEPTED, [value, 0]))
    }
}

/// A type, a slice of it, and a slice of what that one leaves.
fn stream(tree: &[u8], first: Share, second: Share) -> [Vec<u8>; 3] {
    let (type_file, first) = (section(tree), section(&slice_tree(tree, first)));
    let mut left = [0; 257];
    let written = second_interpreter::left(&type_file, &first, &mut left)
        .expect("the slice was made from the type");
    let second = section(&slice_tree(&left[2..written], second));
    [type_file, first, second]
}

/// Half of a stream, and then the other half.
fn halves(tree: &[u8]) -> [Vec<u8>; 3] {
    stream(tree, Share::Half, Share::All)
}

/// How a tree of so many nodes is made that grows, with its name in the table.
pub type Growth = (&'static str, fn(usize) -> Vec<u8>);

/// Types at each of the sizes: the group, a name, and the tree.
pub fn grown(growths: &[Growth]) -> Vec<(Group, String, Vec<u8>)> {
    let mut types = Vec::new();
    for (series, tree) in growths {
        for nodes in SIZES {
            let group = Group::Growing {
                series,
                nodes,
                largest: LARGEST,
            };
            types.push((group, format!("{series}, {nodes} nodes"), tree(nodes)));
        }
    }
    types
}

/// The types that are followed as they grow.
pub const GROWTHS: [Growth; 6] = [
    ("deep left", |nodes| type_tree(Shape::DeepLeft, nodes)),
    ("deep right", |nodes| type_tree(Shape::DeepRight, nodes)),
    ("balanced", |nodes| type_tree(Shape::Balanced, nodes)),
    ("eithers, deep left", |nodes| {
        eithers(Shape::DeepLeft, nodes)
    }),
    ("eithers, deep right", |nodes| {
        eithers(Shape::DeepRight, nodes)
    }),
    ("eithers, balanced", |nodes| eithers(Shape::Balanced, nodes)),
];

/// The operations on a type and slices.
const ON_STREAMS: [Operation; 3] = [Operation::Admit, Operation::Left, Operation::Join];

/// Every row, in the order of the table.
pub fn all() -> Vec<Row> {
    let mut rows = patches::legal();
    rows.extend(ON_STREAMS.into_iter().flat_map(legal));
    rows.extend(feeds::legal());
    rows.extend(longest::legal());
    rows.extend(patches::growing());
    rows.extend(ON_STREAMS.into_iter().flat_map(growing));
    rows.extend(feeds::growing());
    rows.extend(longest::growing());
    rows.extend(patches::refused());
    rows.extend(ON_STREAMS.into_iter().flat_map(refused));
    rows.extend(feeds::refused());
    rows.extend(longest::refused());
    rows
}

fn legal(operation: Operation) -> Vec<Row> {
    let small = stream(&[SEQUENCE, CUE, CUE], Share::Half, Share::All);
    let typical = halves(&type_tree(Shape::Balanced, 31));
    let mut rows = vec![
        Row::new(Group::Legal, "small", operation, &small),
        Row::new(Group::Legal, "typical", operation, &typical),
    ];
    let shares = [
        ("nothing has come", Share::Nothing, Share::Nothing),
        ("half has come", Share::Half, Share::All),
        ("all has come", Share::All, Share::Nothing),
    ];
    let trees = GROWTHS.map(|(name, tree)| (name, tree(LARGEST)));
    let choosing = [
        ("64 choices", choices(64)),
        ("63 choices, then a cue", choices_then_cue()),
    ];
    for (tree_name, tree) in trees.iter().chain(&choosing) {
        for (share_name, first, second) in shares {
            let name = format!("largest, {tree_name}, {share_name}");
            let files = stream(tree, first, second);
            rows.push(Row::new(Group::Legal, &name, operation, &files));
        }
    }
    rows
}

fn growing(operation: Operation) -> Vec<Row> {
    (grown(&GROWTHS).into_iter())
        .map(|(group, name, tree)| {
            let name = format!("{name}, half has come");
            Row::new(group, &name, operation, &halves(&tree))
        })
        .collect()
}

/// A file with bytes behind it up to this length.
pub fn lengthened(file: &[u8], length: usize) -> Vec<u8> {
    let mut longer = file.to_vec();
    longer.resize(length, 1);
    longer
}

/// A file whose section claims 65,535 bytes.
pub fn claiming(mut file: Vec<u8>) -> Vec<u8> {
    set_count(&mut file, 65_535);
    file
}

/// Type files that are refused, made of one that is not.
pub fn refused_types(legal: &[u8]) -> [(&'static str, Vec<u8>); 4] {
    [
        ("type file of a mebibyte", lengthened(legal, 1 << 20)),
        ("type claims 65,535 bytes, short", claiming(legal.to_vec())),
        (
            "type claims 65,535 bytes, full",
            claiming(lengthened(legal, 65_537)),
        ),
        ("65,535 forks", section(&[SEQUENCE; 65_535])),
    ]
}

fn refused(operation: Operation) -> Vec<Row> {
    let [stream, slice, second] = stream(
        &type_tree(Shape::Balanced, LARGEST),
        Share::All,
        Share::Nothing,
    );
    let slices = [
        ("slice file of a mebibyte", lengthened(&slice, 1 << 20)),
        ("slice claims 65,535 bytes, short", claiming(slice.clone())),
        (
            "slice claims 65,535 bytes, full",
            claiming(lengthened(&slice, 65_537)),
        ),
    ];
    let with_type = |file: Vec<u8>| [file, slice.clone(), second.clone()];
    let with_slice = |file: Vec<u8>| [stream.clone(), file, second.clone()];
    let types = refused_types(&stream).map(|(name, file)| (name, with_type(file)));
    (types.into_iter())
        .chain(slices.map(|(name, file)| (name, with_slice(file))))
        .map(|(name, files)| Row::new(Group::Refused, name, operation, &files))
        .collect()
}
