//! What Join wrote, held to what Admit counts: joining two slices adds their arrivals.

use crate::calls::asking::Asking;
use crate::generators::random::Random;

/// Holds a slice file that Join wrote to what is asked of it: it has as many arrivals as its two
/// slices together, the second of which is one of the type that Left writes. Answers those of each.
pub fn hold_joined(
    files: &[Vec<u8>],
    joined: &[u8],
    noise: &mut Random,
) -> Result<[u32; 2], String> {
    let [stream, first, second] = files else {
        unreachable!("Join has three files");
    };
    let mut asking = Asking { noise };
    let left = asking.left(stream, first)?;
    let [one, other] = [
        asking.arrivals(stream, first)?,
        asking.arrivals(&left, second)?,
    ];
    let both = asking.arrivals(stream, joined)?;
    if both == one + other {
        Ok([one, other])
    } else {
        Err(format!(
            "of what Join wrote Admit counts {both} arrivals, and of the two slices {one} and {other}"
        ))
    }
}
