//! Feeds in which cues and levels send by another rule than M-103's, wrong in one way each: to see
//! that calls and streams find it.

use second_interpreter::{
    empty_slice, feed_node, output_type, patch_file, slice_file, what_slice_leaves, Fed, Node,
    Slice, Type,
};

use crate::calls::counts::Counts;
use crate::formats::files::contents;
use crate::formats::totals::totals_in;
use crate::formats::trees::{patch_trees, slice_tree};

/// What a rule can look at.
#[derive(Clone, Copy, Debug)]
struct Seen<'a> {
    /// The slice that the node is fed, and the node's input type.
    slice: &'a Slice,
    input: &'a Type,
    /// The slice of the patch, and the patch's input type.
    patch_slice: &'a Slice,
    patch_input: &'a Type,
}

impl Seen<'_> {
    fn differs(self) -> bool {
        *self.slice != empty_slice(self.input)
    }

    fn is_complete(self) -> bool {
        self.slice.is_complete()
    }

    fn opens(self) -> bool {
        self.differs() || self.is_complete()
    }

    fn patch_opens(self) -> bool {
        Seen {
            slice: self.patch_slice,
            input: self.patch_input,
            ..self
        }
        .opens()
    }
}

/// When a cue or a level sends, and whether it is still there afterwards.
#[derive(Clone, Copy, Debug)]
pub struct Rule {
    pub name: &'static str,
    opens: fn(Seen) -> bool,
    stays: bool,
}

const fn rule(name: &'static str, opens: fn(Seen) -> bool) -> Rule {
    Rule {
        name,
        opens,
        stays: false,
    }
}

impl Rule {
    /// M-103's own.
    pub const RIGHT: Rule = rule("right", |seen| seen.opens());

    /// The wrong ones.
    pub const WRONG: [Rule; 6] = [
        rule("only_arrivals_open", |seen| {
            arrived(seen.slice) || seen.is_complete()
        }),
        rule("opened_by_the_slice_of_the_patch", |seen| {
            seen.patch_opens()
        }),
        rule("complete_does_not_open", |seen| seen.differs()),
        Rule {
            stays: true,
            ..rule("sends_twice", |seen| seen.opens())
        },
        rule("sends_at_the_first_feed", |_| true),
        rule("waits_for_a_complete_slice", |seen| seen.is_complete()),
    ];

    /// The wrong rule of this name.
    pub fn wrong(name: &str) -> Option<Rule> {
        Rule::WRONG.into_iter().find(|rule| rule.name == name)
    }

    /// The output file and the patch file that a feed of accepted files writes by this rule. None
    /// if a node is sent what is no slice of its input: a wrong rule can send a crossing of what is
    /// not complete. None, too, if with what this rule sends a total would pass the greatest.
    pub fn feed(self, patch: &[u8], slice: &[u8]) -> Option<[Vec<u8>; 2]> {
        let (input, node) = patch_trees(patch);
        let slice = slice_tree(contents(slice));
        let feeding = Feeding {
            rule: self,
            patch_slice: &slice,
            patch_input: &input,
        };
        let fed = feeding.node(&node, &input, &slice)?;
        let input_left = what_slice_leaves(&input, &slice)?;
        let counts = Counts {
            arrived: slice.arrivals(),
            sent: fed.sent.arrivals(),
        };
        let totals = counts.added_to(totals_in(patch)?)?;
        Some([
            slice_file(&fed.sent),
            patch_file(&input_left, &fed.left, totals),
        ])
    }
}

/// Whether a cue or a level came.
fn arrived(slice: &Slice) -> bool {
    match slice {
        Slice::CueCome | Slice::LevelCome(_) => true,
        Slice::Uncrossed(part) | Slice::FirstChosen(part) | Slice::SecondChosen(part) => {
            arrived(part)
        }
        Slice::Crossed(one, other) | Slice::Beside(one, other) => arrived(one) || arrived(other),
        _ => false,
    }
}

/// A feed of a patch by a rule.
#[derive(Clone, Copy, Debug)]
struct Feeding<'a> {
    rule: Rule,
    patch_slice: &'a Slice,
    patch_input: &'a Type,
}

impl Feeding<'_> {
    fn node(self, node: &Node, input: &Type, slice: &Slice) -> Option<Fed> {
        match node {
            Node::Cue => Some(self.opening(node, input, [Slice::CueNotYet, Slice::CueCome], slice)),
            Node::Level(value) => {
                let sends = [Slice::LevelNotYet, Slice::LevelCome(*value)];
                Some(self.opening(node, input, sends, slice))
            }
            Node::Both(one, other) => {
                let one = self.node(one, input, slice)?;
                let other = self.node(other, input, slice)?;
                Some(Fed {
                    sent: Slice::beside(one.sent, other.sent),
                    left: Node::both(one.left, other.left),
                })
            }
            Node::Then(first, second) => self.then([first, second], input, slice),
            Node::Chain(first, second) => {
                let between = output_type(first, input).ok()?;
                let first = self.node(first, input, slice)?;
                let second = self.node(second, &between, &first.sent)?;
                Some(Fed {
                    sent: second.sent,
                    left: Node::chain(first.left, second.left),
                })
            }
            Node::Choose(first, second) => {
                let (first_input, second_input) = input.either_parts()?;
                match slice {
                    Slice::FirstChosen(part) => self.node(first, first_input, part),
                    Slice::SecondChosen(part) => self.node(second, second_input, part),
                    _ => feed_node(node, input, slice),
                }
            }
            leaf => feed_node(leaf, input, slice),
        }
    }

    /// A cue or a level, with what it sends while it waits and then.
    fn opening(self, node: &Node, input: &Type, sends: [Slice; 2], slice: &Slice) -> Fed {
        let [awaited, come] = sends;
        let opens = (self.rule.opens)(Seen {
            slice,
            input,
            patch_slice: self.patch_slice,
            patch_input: self.patch_input,
        });
        Fed {
            sent: if opens { come } else { awaited },
            left: if opens && !self.rule.stays {
                Node::silent(Type::Empty)
            } else {
                node.clone()
            },
        }
    }

    fn then(self, parts: [&Node; 2], input: &Type, slice: &Slice) -> Option<Fed> {
        let [first, second] = parts;
        let (first_input, second_input) = input.sequence_parts()?;
        match slice {
            Slice::Uncrossed(part) => {
                let first = self.node(first, first_input, part)?;
                Some(Fed {
                    sent: Slice::uncrossed(first.sent),
                    left: Node::then(first.left, second.clone()),
                })
            }
            Slice::Crossed(part, rest) => {
                let first = self.node(first, first_input, part)?;
                let second = self.node(second, second_input, rest)?;
                Some(Fed {
                    sent: Slice::crossed(first.sent, second.sent),
                    left: second.left,
                })
            }
            _ => None,
        }
    }
}
