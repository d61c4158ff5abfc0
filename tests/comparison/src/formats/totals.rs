//! The totals of a patch: its third section, read and written without an interpreter.

use second_interpreter::Totals;

use crate::formats::fault::{CUT_SHORT, LEFT_OVER};
use crate::formats::files::{count, nodes_end, section};

/// The greatest total.
pub const GREATEST_TOTAL: u32 = 4_294_967_295;

/// How many bytes both totals have, and how many their section with its count.
pub const TOTALS_BYTES: usize = 8;
pub const TOTALS_SECTION: usize = 10;

/// The section of these totals: what arrived, then what was sent, the high byte of each first.
pub fn totals_section(totals: Totals) -> Vec<u8> {
    section(&[totals.arrived, totals.sent].map(four_bytes).concat())
}

fn four_bytes(total: u32) -> [u8; 4] {
    [1 << 24, 1 << 16, 1 << 8, 1].map(|place: u32| (total / place % 256) as u8)
}

fn number(bytes: &[u8]) -> u32 {
    let place = |high: u32, byte: &u8| high * 256 + u32::from(*byte);
    bytes.iter().fold(0, place)
}

/// The totals in what is behind the nodes of a patch file; or the number with which it is refused,
/// if it is no section of eight bytes with nothing behind it.
pub fn read_totals(behind: &[u8]) -> Result<Totals, u32> {
    let counted = count(behind);
    if counted < TOTALS_BYTES || behind.len() < 2 + counted {
        return Err(CUT_SHORT);
    }
    if counted > TOTALS_BYTES || behind.len() > 2 + counted {
        return Err(LEFT_OVER);
    }
    let (arrived, sent) = behind[2..].split_at(4);
    Ok(Totals {
        arrived: number(arrived),
        sent: number(sent),
    })
}

/// The totals of a patch file with three whole sections.
pub fn totals_in(patch: &[u8]) -> Option<Totals> {
    read_totals(&patch[nodes_end(patch)?..]).ok()
}

/// The patch file with these totals in place of all that is behind its nodes, if it has these.
pub fn with_totals(patch: &[u8], totals: Totals) -> Option<Vec<u8>> {
    let nodes_end = nodes_end(patch)?;
    Some([&patch[..nodes_end], &totals_section(totals)].concat())
}
