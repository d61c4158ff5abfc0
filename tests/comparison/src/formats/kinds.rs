//! The kinds of types, slices and nodes, by the names of the definitions in `crates/stream` and
//! `crates/node`, or where these differ by document 01's words.

/// The kinds of types.
pub mod type_kind {
    /// Nothing at all.
    pub const EMPTY: u8 = 0;
    /// One cue.
    pub const CUE: u8 = 1;
    /// One level of 16 bits.
    pub const LEVEL: u8 = 2;
    /// Two parts, one after the other.
    pub const SEQUENCE: u8 = 3;
    /// Two parts side by side.
    pub const BESIDE: u8 = 4;
    /// Two parts of which one is chosen.
    pub const EITHER: u8 = 5;

    /// The listed kinds in words, by their numbers.
    pub const NAMES: [&str; 6] = ["empty", "cue", "level", "sequence", "beside", "either"];
    /// How many kinds are listed.
    pub const LISTED: u8 = NAMES.len() as u8;
}

/// The kinds of slices.
pub mod slice_kind {
    /// Of the empty type.
    pub const NOTHING: u8 = 0;
    /// A cue that has not come.
    pub const CUE_AWAITED: u8 = 1;
    /// A cue that has come.
    pub const CUE_COME: u8 = 2;
    /// A level that has not come.
    pub const LEVEL_AWAITED: u8 = 3;
    /// A level that has come; its value follows.
    pub const LEVEL_COME: u8 = 4;
    /// A sequence whose first part is still coming.
    pub const IN_FIRST: u8 = 5;
    /// A sequence that is crossed: all of its first part, and a slice of the second.
    pub const CROSSED: u8 = 6;
    /// Both sides.
    pub const BESIDE: u8 = 7;
    /// Of either: none is chosen.
    pub const NONE_CHOSEN: u8 = 8;
    /// Of either: the first part is chosen; a slice of it.
    pub const FIRST_CHOSEN: u8 = 9;
    /// Of either: the second part is chosen; a slice of it.
    pub const SECOND_CHOSEN: u8 = 10;

    /// The listed kinds in words, by their numbers.
    pub const NAMES: [&str; 11] = [
        "nothing",
        "cue awaited",
        "cue come",
        "level awaited",
        "level come",
        "in first",
        "crossed",
        "beside",
        "none chosen",
        "first chosen",
        "second chosen",
    ];
    /// How many kinds are listed.
    pub const LISTED: u8 = NAMES.len() as u8;
}

/// The kinds of nodes.
pub mod node_kind {
    /// Gives its input.
    pub const PASS: u8 = 0;
    /// Gives the nullable type that it carries.
    pub const SILENT: u8 = 1;
    /// Gives a cue.
    pub const CUE: u8 = 2;
    /// Gives the level that it carries.
    pub const LEVEL: u8 = 3;
    /// Two nodes, each on the whole input.
    pub const BOTH: u8 = 4;
    /// Gives the left side.
    pub const LEFT: u8 = 5;
    /// Gives the right side.
    pub const RIGHT: u8 = 6;
    /// Gives the first part of a sequence.
    pub const FIRST: u8 = 7;
    /// Gives the second part of a sequence.
    pub const SECOND: u8 = 8;
    /// Two nodes, one on each part of a sequence.
    pub const THEN: u8 = 9;
    /// Two nodes, the second on what the first gives.
    pub const CHAIN: u8 = 10;
    /// Groups a sequence of three parts to the right.
    pub const REGROUP_RIGHT: u8 = 11;
    /// Groups a sequence of three parts to the left.
    pub const REGROUP_LEFT: u8 = 12;
    /// Gives a first part to each of two sides behind it.
    pub const SPREAD: u8 = 13;
    /// Puts an empty first part in front.
    pub const FRONT: u8 = 14;
    /// Two nodes, one for each part of an either, to one type.
    pub const CHOOSE: u8 = 15;
    /// Chooses its input, the first of two; it carries the type of the other.
    pub const MARK_FIRST: u8 = 16;
    /// Chooses its input, the second of two; it carries the type of the other.
    pub const MARK_SECOND: u8 = 17;

    /// The listed kinds in words, by their numbers.
    pub const NAMES: [&str; 18] = [
        "pass",
        "silent",
        "cue",
        "level",
        "both",
        "left",
        "right",
        "first",
        "second",
        "then",
        "chain",
        "regroup right",
        "regroup left",
        "spread",
        "front",
        "choose",
        "mark first",
        "mark second",
    ];
    /// How many kinds are listed.
    pub const LISTED: u8 = NAMES.len() as u8;
}
