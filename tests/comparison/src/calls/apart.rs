//! A call with a patch, taken apart: what its totals and its lent buffers decide, and what all the
//! rest of it does.

use second_interpreter::Totals;

use crate::calls::call::{Call, Operation};
use crate::calls::comparison::Answer;
use crate::formats::fault;
use crate::formats::files::nodes_end;
use crate::formats::totals::with_totals;

/// The parts of a call of Check or Feed.
#[derive(Clone, Debug)]
pub struct Apart {
    /// What is behind the nodes of the patch: the section of its totals, if that is in order.
    pub behind: Vec<u8>,
    /// The second interpreter's answer with totals of 0 in its place and long buffers.
    pub rest: Answer,
    /// Whether each lent buffer is too short for that answer.
    pub short: Vec<bool>,
    /// The number of a fault of the patch that the first pass finds in front of its totals, and of
    /// one that only the second pass finds.
    pub in_front: Option<u32>,
    pub second_pass: Option<u32>,
}

impl Apart {
    /// The parts of a call. None if it has no patch, or a patch whose nodes are not all there: what
    /// is put behind them would become a part of them.
    pub fn of(call: &Call) -> Option<Self> {
        if !call.operation.takes_patch() {
            return None;
        }
        let mut files = call.files.clone();
        let nodes_end = nodes_end(&files[0])?;
        files[0] = with_totals(&files[0], Totals::default())?;
        let (rest, _) = Call::roomy(call.operation, files).second_outcome();
        let lent = call.lent.iter().zip(rest.written);
        let (in_front, second_pass) = match rest.number {
            fault::CUT_SHORT | fault::UNLISTED | fault::LEFT_OVER | fault::TOO_MANY_NODES => {
                (Some(rest.number), None)
            }
            fault::TYPE_TOO_LARGE if is_too_large_in_front(&call.files[0][..nodes_end]) => {
                (Some(rest.number), None)
            }
            fault::TYPE_TOO_LARGE
            | fault::NOT_NULLABLE
            | fault::WRONG_SHAPE
            | fault::OUTPUTS_DIFFER => (None, Some(rest.number)),
            _ => (None, None),
        };
        Some(Apart {
            behind: call.files[0][nodes_end..].to_vec(),
            rest,
            short: lent.map(|(lent, needs)| *lent < needs).collect(),
            in_front,
            second_pass,
        })
    }
}

/// Whether the first pass finds too large a type in a type and nodes: else it finds that they have
/// no totals behind them.
fn is_too_large_in_front(type_and_nodes: &[u8]) -> bool {
    let call = Call::roomy(Operation::Check, vec![type_and_nodes.to_vec()]);
    call.second_outcome().0.number == fault::TYPE_TOO_LARGE
}
