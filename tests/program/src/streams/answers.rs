//! The largest answers: a type of 128 levels side by side, all of which come in one slice. What is
//! sent has 511 bytes and what is left 255, and that makes a line of 1,536 characters; it can come
//! once in a stream, since a level comes once. The lines before it and behind it have 1,024.

use comparison::formats::files::patch;
use comparison::formats::kinds::node_kind::{BOTH, CHAIN, LEFT, PASS, RIGHT};
use comparison::formats::kinds::type_kind::{BESIDE, LEVEL};
use comparison::generators::slices::Pace;
use comparison::generators::types::{Shape, MOST_FORKS};
use comparison::Random;

use crate::streams::shows::Show;

/// So many lines of the empty slice fit in 64 KiB of output.
const LINES_IN_64_KIB: usize = 64;

/// A stream whose output passes 64 KiB again and again. Often the longest line lies across the
/// first such place; refused slices, which have lines of three characters, shift it.
pub fn largest(random: &mut Random) -> Vec<u8> {
    let mut show = Show::of(lanes_patch(random));
    let before = random.pick(&[
        0,
        1,
        LINES_IN_64_KIB - 2,
        LINES_IN_64_KIB - 1,
        LINES_IN_64_KIB,
    ]);
    for _ in 0..before {
        show.come(random, Pace::NOTHING);
    }
    for _ in 0..random.below(400) {
        show.feed(Vec::new());
    }
    show.come(random, Pace::ALL);
    for _ in 0..random.between(70, 200) {
        show.come(random, Pace::NOTHING);
        if random.chance(10) {
            show.feed_fault(random);
        }
    }
    show.stream()
}

/// A patch on the largest type that sends all that comes, as it is or with its sides swapped.
fn lanes_patch(random: &mut Random) -> Vec<u8> {
    let shape = random.pick(&Shape::ALL);
    let mut tree = Vec::new();
    write_lanes(random, shape, MOST_FORKS, &mut tree);
    let nodes = random.pick::<&[u8]>(&[
        &[PASS],
        &[CHAIN, PASS, PASS],
        &[BOTH, LEFT, RIGHT],
        &[BOTH, RIGHT, LEFT],
    ]);
    patch(&tree, nodes)
}

fn write_lanes(random: &mut Random, shape: Shape, forks: usize, out: &mut Vec<u8>) {
    if forks == 0 {
        out.push(LEVEL);
        return;
    }
    out.push(BESIDE);
    let first = shape.in_first(random, forks - 1);
    write_lanes(random, shape, first, out);
    write_lanes(random, shape, forks - 1 - first, out);
}
