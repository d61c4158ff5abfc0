//! Which of document 01's cases a node meets with the slice that comes to it.

use second_interpreter::{Node, Slice};

/// The cases, in the order of the kinds. Where a node does one thing before an arrival, a crossing
/// or a choice and another after it, each is a case.
pub const CASES: [&str; 30] = [
    "pass",
    "silent",
    "cue waits",
    "cue sends",
    "level waits",
    "level sends",
    "both",
    "left",
    "right",
    "first on 5",
    "first on 6",
    "second on 5",
    "second on 6",
    "then on 5",
    "then on 6",
    "chain",
    "regroup right on 5 5",
    "regroup right on 5 6",
    "regroup right on 6 6",
    "regroup left on 5",
    "regroup left on 6 5",
    "regroup left on 6 6",
    "spread on 5",
    "spread on 6",
    "front",
    "choose on 8",
    "choose on 9",
    "choose on 10",
    "mark first",
    "mark second",
];

/// How many nodes met each case.
pub type Met = [u64; CASES.len()];

/// The place of a case, by its name.
pub fn place(name: &str) -> usize {
    let case = CASES.iter().position(|case| *case == name);
    case.expect("the names are those of the cases")
}

/// The case of a node. What a cue or a level does is told by what is left of it: whether it waits.
pub fn name(node: &Node, slice: &Slice, waits: bool) -> &'static str {
    let crossed = matches!(slice, Slice::Crossed(..));
    let by_crossing = |before, after| if crossed { after } else { before };
    match node {
        Node::Pass => "pass",
        Node::Silent(_) => "silent",
        Node::Cue if waits => "cue waits",
        Node::Cue => "cue sends",
        Node::Level(_) if waits => "level waits",
        Node::Level(_) => "level sends",
        Node::Both(..) => "both",
        Node::Left => "left",
        Node::Right => "right",
        Node::First => by_crossing("first on 5", "first on 6"),
        Node::Second => by_crossing("second on 5", "second on 6"),
        Node::Then(..) => by_crossing("then on 5", "then on 6"),
        Node::Chain(..) => "chain",
        Node::RegroupRight => match slice {
            Slice::Uncrossed(inner) if matches!(**inner, Slice::Uncrossed(_)) => {
                "regroup right on 5 5"
            }
            _ => by_crossing("regroup right on 5 6", "regroup right on 6 6"),
        },
        Node::RegroupLeft => match slice {
            Slice::Crossed(_, rest) if matches!(**rest, Slice::Uncrossed(_)) => {
                "regroup left on 6 5"
            }
            _ => by_crossing("regroup left on 5", "regroup left on 6 6"),
        },
        Node::Spread => by_crossing("spread on 5", "spread on 6"),
        Node::Front => "front",
        Node::Choose(..) => match slice {
            Slice::FirstChosen(_) => "choose on 9",
            Slice::SecondChosen(_) => "choose on 10",
            _ => "choose on 8",
        },
        Node::MarkFirst(_) => "mark first",
        Node::MarkSecond(_) => "mark second",
    }
}
