//! A file about a place in the input at which a program's buffer might end.

use comparison::generators::slices::Pace;
use comparison::Random;

use crate::streams::shows::Show;

/// The places.
pub const BOUNDARIES: [usize; 2] = [65_536, 131_072];

/// What fills the stream up to a place is at most so long.
const LONGEST_FILLER: usize = 20_000;

/// So much in front of the place may be filled with slices that bring nothing.
const FILLED_WITH_SLICES: usize = 1_000;

/// Streams with a slice that begins at every place from which it reaches the boundary, and at the
/// places just before and after those. Of a long slice only some, the ends among them.
pub fn about(turn: usize, random: &mut Random) -> Vec<Vec<u8>> {
    let boundary = BOUNDARIES[turn % BOUNDARIES.len()];
    let slices = random.chance(50);
    let mut show = if turn % 3 == 2 {
        Show::any(random)
    } else {
        Show::sized(random, 3..=12, 50)
    };
    show.come(random, Pace::NOTHING);
    let pace = Pace::any(random);
    let slice = show.slice(random, pace);
    let length = 2 + slice.len();
    let begins = |back: usize| boundary + 1 - back;
    let mut backs: Vec<usize> = (0..=length + 2).collect();
    while backs.len() > 30 {
        backs.remove(random.between(6, backs.len() - 7));
    }
    let mut streams = Vec::new();
    for back in backs {
        let mut show = show.clone();
        fill(random, &mut show, begins(back), slices);
        show.feed(slice.clone());
        show.come(random, Pace::NOTHING);
        show.feed_fault(random);
        show.come(random, Pace::ALL);
        streams.push(show.stream());
    }
    streams
}

/// Fills a show up to a place: with few long files, and at the end, if wanted, with slices that
/// bring nothing.
fn fill(random: &mut Random, show: &mut Show, end: usize, slices: bool) {
    if slices {
        fill(random, show, end - FILLED_WITH_SLICES, false);
        let longest = 2 + show.slice(random, Pace::NOTHING).len();
        // Two bytes are left at least, for the length of one more file.
        while show.length() + longest + 2 <= end {
            show.come(random, Pace::NOTHING);
        }
    }
    while show.length() < end {
        let room = end - show.length();
        let size = if room <= LONGEST_FILLER {
            room
        } else {
            random.between(2, LONGEST_FILLER - 2)
        };
        show.feed(vec![200; size - 2]);
    }
}
