//! The program of this package keeps the convention of the programs.

use comparison::convention::trial::{hold, Row};

/// A file with the counts of one row alone.
const COUNTED: &str = "--instructions /dev/stdin <<END\n100 200\nEND";

/// No row has a whole table: that takes too long for a test.
const ROWS: [Row; 8] = [
    ("--count 1", 0, "Longest, "),
    ("--count", 2, "the words are: "),
    ("--count 0", 2, "no number that can be used: 0"),
    ("--runs x", 2, "no number that can be used: x"),
    ("--instructions", 2, "the words are: "),
    ("--instructions /not/there", 2, "/not/there: "),
    ("--instructions Cargo.toml", 2, "Cargo.toml: no two counts"),
    (COUNTED, 2, "1 counts for "),
];

#[test]
fn bench_keeps_the_convention() {
    // Without words it writes the table. The heading comes first, so what cannot be written is told
    // at once.
    hold(env!("CARGO_BIN_EXE_bench"), "", &ROWS);
}
