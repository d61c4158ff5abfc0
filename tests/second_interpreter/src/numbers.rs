//! The numbers with which document 01 and requests M-100 and M-105 refuse; M-101,
//! M-103 and M-104 have none of their own.

/// Refusal number as the documents give it.
pub type Number = u32;

/// 1: a section is longer than the bytes remain, or a tree needs a byte past
/// its section, or a section of totals is shorter than eight bytes (M-105).
pub(crate) const CUT_SHORT: Number = 1;
/// 2: a kind byte not listed.
pub(crate) const UNLISTED_KIND: Number = 2;
/// 3: bytes after a whole tree in its section, or after the last section, or a
/// section of totals is longer than eight bytes (M-105).
pub(crate) const LEFT_OVER: Number = 3;
/// 4: a type needs a 256th node, or the type a node gives is too large.
pub(crate) const TYPE_TOO_LARGE: Number = 4;
/// 5: a 64th node is needed.
pub(crate) const TOO_MANY_NODES: Number = 5;
/// 6: silent's type is not nullable.
pub(crate) const NOT_NULLABLE: Number = 6;
/// 7: a node's input lacks the shape it takes.
pub(crate) const WRONG_SHAPE: Number = 7;
/// 11: a slice is cut short.
pub(crate) const SLICE_CUT_SHORT: Number = 11;
/// 12: "now an unlisted kind", so one above 10 (M-100).
pub(crate) const SLICE_UNLISTED_KIND: Number = 12;
/// 13: bytes left over in a slice file.
pub(crate) const SLICE_LEFT_OVER: Number = 13;
/// 14: a slice kind that does not belong there.
pub(crate) const SLICE_MISPLACED_KIND: Number = 14;
/// 20: the buffer is too short for this answer.
pub(crate) const BUFFER_TOO_SHORT: Number = 20;
/// 30: choose's output types differ (M-100).
pub(crate) const OUTPUTS_DIFFER: Number = 30;
/// 31: a total would pass 4,294,967,295 (M-105).
pub(crate) const TOTAL_TOO_LARGE: Number = 31;
