//! One call, handed to the library and to the second interpreter, and the two answers compared.

use crate::calls::call::{Call, Operation};
use crate::calls::counts::Counts;
use crate::calls::library;
use crate::formats::fault;
use crate::formats::files::{contents, decimal};
use crate::formats::preorder::arrivals;
use crate::formats::totals::totals_in;
use crate::generators::random::Random;

/// So many random bytes lie in front of and behind every file and every lent buffer. Behind a
/// file they make a read past its end answer at random; around a buffer they show a write.
const MARGIN: usize = 16;

/// What an operation answers in numbers.
#[derive(Clone, Copy, Debug, Default, PartialEq, Eq)]
pub struct Answer {
    /// 0, or the number of the first fault.
    pub number: u32,
    /// For Admit 1 if the slice is complete; 0 on a refusal.
    pub complete: u32,
    /// The bytes written to each lent buffer; 0 on a refusal, and where there is no such buffer.
    pub written: [usize; 2],
    /// For Admit and Feed what came in the slice, and for Feed what is in the slice sent; 0 on a
    /// refusal.
    pub counts: Counts,
}

impl Answer {
    fn of_written(answer: library::Written) -> Self {
        Answer {
            number: answer.number,
            written: [answer.written, 0],
            ..Answer::default()
        }
    }

    fn of_admitted(answer: library::Admitted) -> Self {
        Answer {
            number: answer.number,
            complete: answer.complete,
            counts: Counts {
                arrived: answer.arrived,
                sent: 0,
            },
            ..Answer::default()
        }
    }

    fn of_fed(answer: library::Fed) -> Self {
        Answer {
            number: answer.number,
            written: [answer.output, answer.patch],
            counts: Counts {
                arrived: answer.arrived,
                sent: answer.sent,
            },
            ..Answer::default()
        }
    }
}

/// What both have answered, and the files at the front of the lent buffers.
#[derive(Clone, Debug)]
pub struct Agreed {
    pub answer: Answer,
    pub files: Vec<Vec<u8>>,
}

/// Bytes between two margins.
#[derive(Clone)]
struct Place {
    whole: Vec<u8>,
}

impl Place {
    fn random(random: &mut Random, length: usize) -> Self {
        let mut whole = vec![0; length + 2 * MARGIN];
        random.fill(&mut whole);
        Place { whole }
    }

    fn holding(random: &mut Random, bytes: &[u8]) -> Self {
        let mut whole = vec![0; bytes.len() + 2 * MARGIN];
        let (front, rest) = whole.split_at_mut(MARGIN);
        let (middle, behind) = rest.split_at_mut(bytes.len());
        random.fill(front);
        middle.copy_from_slice(bytes);
        random.fill(behind);
        Place { whole }
    }

    fn bytes(&self) -> &[u8] {
        &self.whole[MARGIN..self.whole.len() - MARGIN]
    }

    fn bytes_mut(&mut self) -> &mut [u8] {
        let end = self.whole.len() - MARGIN;
        &mut self.whole[MARGIN..end]
    }
}

/// Whether all the bytes of these places are the same, their margins included.
fn same(some: &[Place], others: &[Place]) -> bool {
    (some.iter().zip(others)).all(|(one, other)| one.whole == other.whole)
}

/// The library's answer. `files` are handed over where they lie.
fn library_answer(operation: Operation, files: &[&[u8]], lent: &mut [&mut [u8]]) -> Answer {
    match (operation, files, lent) {
        (Operation::Check, [patch], [lent]) => Answer::of_written(library::check(patch, lent)),
        (Operation::Admit, [stream, slice], []) => {
            Answer::of_admitted(library::admit(stream, slice))
        }
        (Operation::Left, [stream, slice], [lent]) => {
            Answer::of_written(library::left(stream, slice, lent))
        }
        (Operation::Join, [stream, first, second], [lent]) => {
            Answer::of_written(library::join(stream, first, second, lent))
        }
        (Operation::Feed, [patch, slice], [output, left]) => {
            Answer::of_fed(library::feed(patch, slice, output, left))
        }
        (Operation::Longest, [stream], [lent]) => {
            Answer::of_written(library::longest(stream, lent))
        }
        _ => unreachable!("a call has the files and the buffers of its operation"),
    }
}

/// The second interpreter's answer.
pub fn second_answer(operation: Operation, files: &[&[u8]], lent: &mut [&mut [u8]]) -> Answer {
    let mut answer = Answer::default();
    let result = match (operation, files, lent) {
        (Operation::Check, [patch], [lent]) => {
            second_interpreter::check(patch, lent).map(|written| answer.written[0] = written)
        }
        (Operation::Admit, [stream, slice], []) => {
            second_interpreter::admit(stream, slice).map(|admitted| {
                answer.complete = u32::from(admitted.complete);
                answer.counts.arrived = admitted.arrived;
            })
        }
        (Operation::Left, [stream, slice], [lent]) => {
            second_interpreter::left(stream, slice, lent).map(|written| answer.written[0] = written)
        }
        (Operation::Join, [stream, first, second], [lent]) => {
            second_interpreter::join(stream, first, second, lent)
                .map(|written| answer.written[0] = written)
        }
        (Operation::Feed, [patch, slice], [output, left]) => {
            second_interpreter::feed(patch, slice, output, left).map(|fed| {
                answer.written = [fed.output, fed.patch];
                answer.counts.arrived = fed.arrived;
                answer.counts.sent = fed.sent;
            })
        }
        (Operation::Longest, [stream], [lent]) => {
            second_interpreter::longest(stream, lent).map(|written| answer.written[0] = written)
        }
        _ => unreachable!("a call has the files and the buffers of its operation"),
    };
    answer.number = result.err().unwrap_or(fault::ACCEPTED);
    answer
}

/// What one of the two has made of a call.
struct Outcome {
    answer: Answer,
    lent: Vec<Place>,
}

type Interpreter = fn(Operation, &[&[u8]], &mut [&mut [u8]]) -> Answer;

/// Hands the files to one of the two, with buffers that hold these bytes.
fn outcome(interpreter: Interpreter, call: &Call, files: &[&[u8]], before: &[Place]) -> Outcome {
    let mut lent = before.to_vec();
    let mut buffers: Vec<&mut [u8]> = lent.iter_mut().map(Place::bytes_mut).collect();
    let answer = interpreter(call.operation, files, &mut buffers);
    Outcome { answer, lent }
}

/// Hands the call to both. Answers what they agree on, or says what differs.
pub fn compare(call: &Call, random: &mut Random) -> Result<Agreed, String> {
    let places: Vec<Place> = (call.files.iter())
        .map(|file| Place::holding(random, file))
        .collect();
    let handed = places.clone();
    let files: Vec<&[u8]> = places.iter().map(Place::bytes).collect();
    let before: Vec<Place> = (call.lent.iter())
        .map(|length| Place::random(random, *length))
        .collect();
    let ours = outcome(library_answer, call, &files, &before);
    let theirs = outcome(second_answer, call, &files, &before);

    let bytes = |outcome: &Outcome| -> Vec<Vec<u8>> {
        (outcome.lent.iter())
            .map(|place| place.bytes().to_vec())
            .collect()
    };
    let fault = if ours.answer != theirs.answer {
        "the answers differ"
    } else if bytes(&ours) != bytes(&theirs) {
        "the lent buffers differ"
    } else if !same(&ours.lent, &theirs.lent) {
        "a byte beside a lent buffer was altered"
    } else if !same(&places, &handed) {
        "a file was altered"
    } else if !stays(&ours, &before) {
        "both altered a byte that stays as it was"
    } else if ours.answer.counts != due_counts(call, &ours) {
        "both count otherwise than the kinds in the slices"
    } else if !adds_totals(call, &ours) {
        "both leave other totals than those of the patch and the counts"
    } else {
        return Ok(agreed(ours));
    };
    Err(report(fault, call, &before, [&ours, &theirs]))
}

/// Nothing behind the written bytes has changed, and nothing at all on a refusal.
fn stays(outcome: &Outcome, before: &[Place]) -> bool {
    let lent = outcome.lent.iter().zip(before);
    lent.zip(outcome.answer.written)
        .all(|((after, before), written)| {
            let (after, before) = (after.bytes(), before.bytes());
            written <= after.len() && after[written..] == before[written..]
        })
}

/// The counts by the kinds in the bytes of the slices; 0 on a refusal, and where none are given.
fn due_counts(call: &Call, outcome: &Outcome) -> Counts {
    if outcome.answer.number != fault::ACCEPTED {
        return Counts::default();
    }
    match (call.operation, call.files.as_slice()) {
        (Operation::Admit, [_, slice]) => Counts {
            arrived: arrivals(contents(slice)),
            sent: 0,
        },
        (Operation::Feed, [_, slice]) => Counts {
            arrived: arrivals(contents(slice)),
            sent: arrivals(contents(outcome.lent[0].bytes())),
        },
        _ => Counts::default(),
    }
}

/// If a patch was fed, the patch left has its totals and the counts, by the bytes of both files.
fn adds_totals(call: &Call, outcome: &Outcome) -> bool {
    let answer = &outcome.answer;
    if call.operation != Operation::Feed || answer.number != fault::ACCEPTED {
        return true;
    }
    let left = &outcome.lent[1].bytes()[..answer.written[1]];
    let due = totals_in(&call.files[0]).and_then(|totals| answer.counts.added_to(totals));
    due.is_some() && totals_in(left) == due
}

fn agreed(outcome: Outcome) -> Agreed {
    let lent = outcome.lent.iter().zip(outcome.answer.written);
    let files = lent.map(|(place, written)| place.bytes()[..written].to_vec());
    Agreed {
        files: files.collect(),
        answer: outcome.answer,
    }
}

fn report(fault: &str, call: &Call, before: &[Place], sides: [&Outcome; 2]) -> String {
    let mut text = format!("{fault}\n{call}\n");
    for (place, buffer) in before.iter().zip(call.operation.buffers()) {
        let bytes = decimal(&place.whole);
        text += &format!(
            "{} before, with {MARGIN} bytes on either side: {bytes}\n",
            buffer.name
        );
    }
    for (name, side) in ["library", "second interpreter"].iter().zip(sides) {
        text += &format!("{name}: {:?}\n", side.answer);
        for (place, buffer) in side.lent.iter().zip(call.operation.buffers()) {
            text += &format!("{name}, {} after: {}\n", buffer.name, decimal(&place.whole));
        }
    }
    text
}
