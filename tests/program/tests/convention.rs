//! The program of this package keeps the convention of the programs.

use comparison::convention::trial::{hold, Row};

/// A call that compares a program which is right.
const RIGHT: &str = concat!(
    "--streams 5 --program ",
    env!("CARGO_BIN_EXE_wrong_program")
);

/// A call that feeds a show.
const FED: &str = "--second <../../examples/shows/lamp_fade.show >/dev/full";

const ROWS: [Row; 11] = [
    (RIGHT, 0, "5 streams with seed 1: no difference"),
    ("--program /bin/true", 1, "seed 1, stream "),
    ("--measure /bin/true", 1, ": 0 bytes come out, and "),
    ("", 2, "the words are: "),
    ("--streams 20", 2, "the words are: "),
    ("--second 20", 2, "the words are: "),
    ("--streams 0", 2, "no number that can be used: 0"),
    ("--program /not/there", 2, "/not/there does not start: "),
    ("--measure /not/there", 2, "/not/there: "),
    ("--second </", 2, "standard input or output: "),
    (FED, 2, "standard output cannot be written: "),
];

#[test]
fn compare_program_keeps_the_convention() {
    hold(env!("CARGO_BIN_EXE_compare_program"), RIGHT, &ROWS);
}
