//! The six operations, from files to files: the five of document 01, and that of
//! M-101.
//!
//! An accepted call answers the number of bytes written to each buffer. "These
//! stand at the front of the lent buffer, and the bytes behind them stay.
//! Refused: the number alone, every lent buffer unaltered." So every answer is
//! made whole before the first byte is written.
//!
//! M-104: "Reading a slice now also counts the cues and levels come in it; Admit and
//! Feed give this, and Feed the number sent." A refused call gives no count. M-105:
//! "Feed adds its two counts" to the totals that the patch file brings.

use crate::feeding::{feed_node, Fed};
use crate::files::{
    patch_file, read_patch_file, read_slice_file, read_type_file, slice_file, type_file,
};
use crate::measuring::longest_slice;
use crate::nodes::Node;
use crate::numbers::{Number, BUFFER_TOO_SHORT};
use crate::slices::{join_slices, what_slice_leaves, Slice};
use crate::totals::Totals;
use crate::types::Type;
use crate::typing::output_type;

/// A slice that was read against a type has what it leaves.
const SLICE_WAS_READ: &str = "a slice read against a type is a slice of it";
/// A patch that passed both passes and a slice of its input can be fed.
const PATCH_WAS_CHECKED: &str = "a checked patch takes every slice of its input type";

/// What an accepted Admit answers.
#[derive(Clone, Copy, Debug, PartialEq, Eq)]
pub struct Admitted {
    /// "whether the slice is complete".
    pub complete: bool,
    /// M-104: the number of "the cues and levels come in it".
    pub arrived: u32,
}

/// What an accepted Feed answers: "the number of bytes written, for Feed one number
/// for each buffer", and the two counts of M-104. They are those of this one feed; the
/// totals of M-105 stand in the patch file left.
#[derive(Clone, Copy, Debug, PartialEq, Eq)]
pub struct FedFiles {
    /// The bytes written of "the output slice file".
    pub output: usize,
    /// The bytes written of "the patch file left".
    pub patch: usize,
    /// The number of cues and levels come in the slice that was fed.
    pub arrived: u32,
    /// "the number sent": of cues and levels come in the output slice.
    pub sent: u32,
}

/// "**Check** a patch; writes its output type file."
pub fn check(patch: &[u8], buffer: &mut [u8]) -> Result<usize, Number> {
    let accepted = accept_patch(patch)?;
    write_answer(&type_file(&accepted.output), buffer)
}

/// "**Admit** a type file and a slice; answers whether the slice is complete,
/// writing nothing", and since M-104 also how many cues and levels have come in it.
pub fn admit(type_file: &[u8], slice_file: &[u8]) -> Result<Admitted, Number> {
    let (_, slice) = read_type_and_slice(type_file, slice_file)?;
    Ok(Admitted {
        complete: slice.is_complete(),
        arrived: slice.arrivals(),
    })
}

/// "**Left** of a type and slice; writes a type file. As Admit, then 20."
pub fn left(type_file: &[u8], slice_file: &[u8], buffer: &mut [u8]) -> Result<usize, Number> {
    let (stream, slice) = read_type_and_slice(type_file, slice_file)?;
    let remainder = what_slice_leaves(&stream, &slice).expect(SLICE_WAS_READ);
    write_answer(&crate::files::type_file(&remainder), buffer)
}

/// "**Join** a type and two slices; writes a slice file. As Admit for the
/// first, then 11 to 14 for the second against what is left, then 20."
pub fn join(
    type_file: &[u8],
    first: &[u8],
    second: &[u8],
    buffer: &mut [u8],
) -> Result<usize, Number> {
    let (stream, first) = read_type_and_slice(type_file, first)?;
    let remainder = what_slice_leaves(&stream, &first).expect(SLICE_WAS_READ);
    let second = read_slice_file(second, &remainder)?;
    let joined = join_slices(&first, &second).expect(SLICE_WAS_READ);
    write_answer(&slice_file(&joined), buffer)
}

/// "**Feed** a patch and a slice; writes the output slice file and the patch
/// file left. As Check without 20; 11 to 14 against the input type; 20 if
/// either buffer is too short." Since M-104 it also gives the count of the slice
/// read "and ... the number sent", and since M-105 it adds both to the totals: "31, a
/// total would pass 4,294,967,295, after the slice's refusals and before 20".
pub fn feed(
    patch: &[u8],
    slice: &[u8],
    output: &mut [u8],
    patch_left: &mut [u8],
) -> Result<FedFiles, Number> {
    let accepted = accept_patch(patch)?;
    let (input, node) = (accepted.input, accepted.node);
    let slice = read_slice_file(slice, &input)?;
    let Fed { sent, left } = feed_node(&node, &input, &slice).expect(PATCH_WAS_CHECKED);
    let (arrived, sent_count) = (slice.arrivals(), sent.arrivals());
    let totals = accepted.totals.with_counts(arrived, sent_count)?;
    // "The patch left has as its input type what the slice leaves."
    let input_left = what_slice_leaves(&input, &slice).expect(SLICE_WAS_READ);
    let sent_file = slice_file(&sent);
    let left_file = patch_file(&input_left, &left, totals);
    if sent_file.len() > output.len() || left_file.len() > patch_left.len() {
        return Err(BUFFER_TOO_SHORT);
    }
    Ok(FedFiles {
        output: write_answer(&sent_file, output)?,
        patch: write_answer(&left_file, patch_left)?,
        arrived,
        sent: sent_count,
    })
}

/// M-101: "From a type file, write a slice file such that no slice accepted for
/// that type makes a longer one. ... Faults of the type are 1 to 4, then 20."
pub fn longest(type_file: &[u8], buffer: &mut [u8]) -> Result<usize, Number> {
    let stream = read_type_file(type_file)?;
    write_answer(&slice_file(&longest_slice(&stream)), buffer)
}

/// The totals of an accepted patch file, none of a refused one. No operation of the
/// documents: it is for those who test or compare.
pub fn totals_of(patch_file: &[u8]) -> Option<Totals> {
    let accepted = accept_patch(patch_file).ok()?;
    Some(accepted.totals)
}

/// A patch that the rules of Check have no number for, 20 aside.
struct Accepted {
    input: Type,
    node: Node,
    totals: Totals,
    output: Type,
}

/// Both passes of Check: the whole file first, then the types.
fn accept_patch(patch: &[u8]) -> Result<Accepted, Number> {
    let (input, node, totals) = read_patch_file(patch)?;
    let output = output_type(&node, &input)?;
    Ok(Accepted {
        input,
        node,
        totals,
        output,
    })
}

/// The faults of Admit: those of the type file, then those of the slice.
fn read_type_and_slice(type_file: &[u8], slice_file: &[u8]) -> Result<(Type, Slice), Number> {
    let stream = read_type_file(type_file)?;
    let slice = read_slice_file(slice_file, &stream)?;
    Ok((stream, slice))
}

/// Writes an answer at the front of the buffer; "20: the buffer is too short
/// for this answer".
fn write_answer(answer: &[u8], buffer: &mut [u8]) -> Result<usize, Number> {
    let front = buffer.get_mut(..answer.len()).ok_or(BUFFER_TOO_SHORT)?;
    front.copy_from_slice(answer);
    Ok(answer.len())
}
