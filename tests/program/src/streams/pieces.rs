//! The same stream in other pieces, and from other kinds of input.

use comparison::Random;

use crate::running::delivery::Delivery;
use crate::streams::ends::short;
use crate::streams::shows::run;

/// Writing piece by piece takes a while: longer streams are not cut, and only short ones come byte
/// by byte.
const LONGEST: usize = 30_000;
const MOST_PIECES: usize = 150;

/// A stream as a whole, in pieces, and from a file; every other one byte by byte.
pub fn in_pieces(turn: usize, random: &mut Random) -> Vec<(Vec<u8>, Delivery)> {
    let byte_by_byte = turn % 2 == 1;
    let stream = if byte_by_byte {
        short(random)
    } else {
        not_too_long(random)
    };
    let mut ways = vec![Delivery::Pipe, Delivery::File];
    if byte_by_byte {
        ways.push(Delivery::Pieces(vec![1; stream.len()]));
    }
    for _ in 0..3 {
        ways.push(Delivery::Pieces(cut(random, stream.len())));
    }
    ways.into_iter().map(|way| (stream.clone(), way)).collect()
}

fn not_too_long(random: &mut Random) -> Vec<u8> {
    loop {
        let stream = run(random);
        if stream.len() <= LONGEST {
            return stream;
        }
    }
}

/// Lengths of pieces that make up the whole; when there are many, the last one has all the rest.
fn cut(random: &mut Random, whole: usize) -> Vec<usize> {
    let most = random.pick(&[2, 3, 7, 20, 300, 5_000]);
    let mut lengths = Vec::new();
    let mut rest = whole;
    while rest > 0 {
        let length = if lengths.len() == MOST_PIECES {
            rest
        } else {
            random.between(1, most.min(rest))
        };
        lengths.push(length);
        rest -= length;
    }
    lengths
}

/// A stream from a file, and no bytes at all in every way.
pub fn inputs(random: &mut Random) -> Vec<(Vec<u8>, Delivery)> {
    vec![
        (run(random), Delivery::File),
        (Vec::new(), Delivery::File),
        (Vec::new(), Delivery::Pipe),
        (Vec::new(), Delivery::Null),
    ]
}
