//! Long streams: more than a mebibyte of small slices, as in a long show.

use comparison::generators::slices::Pace;
use comparison::Random;

use crate::streams::shows::Show;

/// More than a mebibyte: longer than any buffer that a program might read into.
const LONG: usize = 1_200_000;

/// A stream in which most slices bring nothing.
pub fn small_slices(random: &mut Random) -> Vec<u8> {
    let mut show = Show::sized(random, 7..=15, 40);
    let seldom = Pace {
        come: 1,
        cross: 0,
        cross_spent: 1,
        choose: 1,
    };
    while show.length() < LONG {
        match random.below(50) {
            0 => show.feed_fault(random),
            1 => show.come(random, seldom),
            _ => show.come(random, Pace::NOTHING),
        }
    }
    show.stream()
}
