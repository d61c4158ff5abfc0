//! Which patches were accepted, counted: the kinds of their nodes, and how large they were.

use std::fmt;

use second_interpreter::{output_type, Node, Type};

use crate::calls::comparison::Answer;
use crate::formats::fault;
use crate::formats::files::count;
use crate::formats::kinds::node_kind::NAMES;
use crate::formats::preorder::{roots, Root};
use crate::formats::trees::patch_trees;
use crate::generators::patches::MOST_FORKS;

/// How deep a patch of the largest number of nodes can be.
const DEEPEST: usize = MOST_FORKS + 1;

const DIFFER_IN_ONE_SIZE: &str = "are refused with 30 for different types of one size";

/// What was met in patches that Check was asked about.
#[derive(Clone, Debug, Default)]
pub struct PatchTally {
    calls: u64,
    /// Those that Check has no number for, 20 aside.
    accepted: u64,
    /// Those whose type was written, too; they are looked into.
    written: u64,
    /// How many patches have a node of each kind, and how many nodes there are.
    patches: [u64; NAMES.len()],
    nodes: [u64; NAMES.len()],
    largest: u64,
    deepest: u64,
    largest_types: u64,
    /// Those refused for a choose to different types of one size.
    differ_in_one_size: u64,
}

/// The types that the nodes of the first choose with two types give.
fn first_difference(node: &Node, input: &Type) -> Option<[Type; 2]> {
    let of_parts = |[one, other]: [&Node; 2], [first, second]: [&Type; 2]| {
        first_difference(one, first).or_else(|| first_difference(other, second))
    };
    match node {
        Node::Both(one, other) => of_parts([one, other], [input, input]),
        Node::Then(one, other) => {
            let (first, second) = input.sequence_parts()?;
            of_parts([one, other], [first, second])
        }
        Node::Chain(one, other) => first_difference(one, input)
            .or_else(|| first_difference(other, &output_type(one, input).ok()?)),
        Node::Choose(one, other) => {
            let (first, second) = input.either_parts()?;
            of_parts([one, other], [first, second]).or_else(|| {
                let gives = [
                    output_type(one, first).ok()?,
                    output_type(other, second).ok()?,
                ];
                (gives[0] != gives[1]).then_some(gives)
            })
        }
        _ => None,
    }
}

/// Whether the first fault of a patch, a choose to different types, is one of types of one size.
fn differs_in_one_size(file: &[u8]) -> bool {
    let (input, node) = patch_trees(file);
    let gives = first_difference(&node, &input);
    gives.is_some_and(|[one, other]| one.size() == other.size())
}

impl PatchTally {
    /// Counts one call of Check.
    pub fn add(&mut self, file: &[u8], answer: &Answer) {
        self.calls += 1;
        self.accepted += u64::from(matches!(answer.number, fault::ACCEPTED | fault::NO_ROOM));
        if answer.number == fault::OUTPUTS_DIFFER {
            self.differ_in_one_size += u64::from(differs_in_one_size(file));
        }
        if answer.number == fault::ACCEPTED {
            let nodes = &file[2 + count(file)..];
            self.add_accepted(nodes, &roots(nodes), answer.written[0] - 2);
        }
    }

    fn add_accepted(&mut self, nodes: &[u8], roots: &[Root], gives: usize) {
        let mut met = [0; NAMES.len()];
        for root in roots {
            met[usize::from(nodes[root.at])] += 1;
        }
        for (kind, times) in met.iter().enumerate() {
            self.patches[kind] += u64::from(*times > 0);
            self.nodes[kind] += times;
        }
        let depth = roots.iter().map(|root| root.depth).max();
        self.written += 1;
        self.largest += u64::from(roots.len() == Node::LIMIT);
        self.deepest += u64::from(depth == Some(DEEPEST));
        self.largest_types += u64::from(gives == Type::LIMIT);
    }

    /// What the patches of a long run should have met and did not.
    pub fn gaps(&self) -> Vec<String> {
        let mut gaps = Vec::new();
        for (kind, name) in NAMES.iter().enumerate() {
            if self.patches[kind] == 0 {
                gaps.push(format!("no accepted patches have a node {kind}, {name}"));
            }
        }
        for (times, what) in self.extremes() {
            if times == 0 {
                gaps.push(format!("no accepted patches {what}"));
            }
        }
        if self.differ_in_one_size == 0 {
            gaps.push(format!("no patches {DIFFER_IN_ONE_SIZE}"));
        }
        gaps
    }

    /// How often the bounds were reached.
    fn extremes(&self) -> [(u64, String); 3] {
        [
            (self.largest, format!("have {} nodes", Node::LIMIT)),
            (self.deepest, format!("are {DEEPEST} nodes deep")),
            (
                self.largest_types,
                format!("give a type of {} nodes", Type::LIMIT),
            ),
        ]
    }
}

impl fmt::Display for PatchTally {
    fn fmt(&self, out: &mut fmt::Formatter<'_>) -> fmt::Result {
        let nodes: u64 = self.nodes.iter().sum();
        writeln!(
            out,
            "{:<20}{:>18}{:>10}",
            "node", "accepted patches", "nodes"
        )?;
        for (kind, name) in NAMES.iter().enumerate() {
            let (patches, nodes) = (self.patches[kind], self.nodes[kind]);
            writeln!(out, "{kind:>2} {name:<17}{patches:>18}{nodes:>10}")?;
        }
        writeln!(
            out,
            "of {} patches {:.1} % are accepted, 20 aside",
            self.calls,
            100.0 * self.accepted as f64 / self.calls.max(1) as f64,
        )?;
        write!(
            out,
            "those in the table have {:.1} nodes on average",
            nodes as f64 / self.written.max(1) as f64,
        )?;
        for (times, what) in self.extremes() {
            write!(out, "; {times} {what}")?;
        }
        let times = self.differ_in_one_size;
        writeln!(out, "\n{times} patches {DIFFER_IN_ONE_SIZE}")
    }
}
