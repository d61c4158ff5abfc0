//! The numbers of answers, by the names of `Fault` in `crates/stream`.

/// The call was accepted.
pub const ACCEPTED: u32 = 0;
/// A section or a tree of a type or a patch needs more bytes than there are.
pub const CUT_SHORT: u32 = 1;
/// A kind of a type or a node is not listed.
pub const UNLISTED: u32 = 2;
/// Bytes lie behind a type, the nodes or the totals, or behind the last section.
pub const LEFT_OVER: u32 = 3;
/// A type needs a 256th node.
pub const TYPE_TOO_LARGE: u32 = 4;
/// A patch needs a 64th node.
pub const TOO_MANY_NODES: u32 = 5;
/// The type that a silent node carries is not nullable.
pub const NOT_NULLABLE: u32 = 6;
/// The input of a node lacks the shape that the node takes.
pub const WRONG_SHAPE: u32 = 7;
/// A section or a tree of a slice needs more bytes than there are.
pub const SLICE_CUT_SHORT: u32 = 11;
/// A kind of a slice is not listed.
pub const SLICE_UNLISTED: u32 = 12;
/// Bytes lie behind a slice.
pub const SLICE_LEFT_OVER: u32 = 13;
/// A kind of a slice does not belong where it is.
pub const SLICE_MISPLACED: u32 = 14;
/// A lent buffer is too short.
pub const NO_ROOM: u32 = 20;
/// The two nodes of a choose give different types.
pub const OUTPUTS_DIFFER: u32 = 30;
/// A total of the patch would pass the greatest one.
pub const TOTAL_TOO_LARGE: u32 = 31;

/// Those of a refused slice.
pub const SLICE_NUMBERS: [u32; 4] = [
    SLICE_CUT_SHORT,
    SLICE_UNLISTED,
    SLICE_LEFT_OVER,
    SLICE_MISPLACED,
];
