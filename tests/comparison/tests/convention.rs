//! The program of this package keeps the convention of the programs.

use comparison::convention::trial::{hold, Row};

const ROWS: [Row; 6] = [
    ("--calls 200", 0, "200 calls and 2 runs with seed 1: no"),
    ("", 2, "the words are: "),
    ("--calls", 2, "the words are: "),
    ("--seed 3", 2, "the words are: "),
    ("--calls 0", 2, "no number that can be used: 0"),
    ("--calls 9 --seed x", 2, "no number that can be used: x"),
];

#[test]
fn compare_keeps_the_convention() {
    hold(env!("CARGO_BIN_EXE_compare"), "--calls 200", &ROWS);
}
