//! Case 10 of document 01: 63 and 65 nodes, types of 255 and of 257.
//!
//! The program `crates/limits` prints the library's answers, and the gate holds what it prints to a
//! stored file. Here that file is held to the second interpreter's answers, and the library is
//! asked once more through C.

use std::path::Path;

use crate::calls::call::{Call, Operation};
use crate::calls::comparison::compare;
use crate::convention::Stop;
use crate::formats::files::patch;
use crate::formats::kinds::node_kind::{CHAIN, PASS};
use crate::formats::kinds::type_kind::{BESIDE, CUE};
use crate::generators::random::Random;

/// The patches of the case, each with its name in the program's output.
fn patches() -> [(&'static str, Vec<u8>); 4] {
    let chains = |times| patch(&[CUE], &repeated(&[CHAIN, PASS], times, PASS));
    let lanes = |times| patch(&repeated(&[BESIDE, CUE], times, CUE), &[PASS]);
    [
        ("63 nodes", chains(31)),
        ("65 nodes", chains(32)),
        ("type of 255", lanes(127)),
        ("type of 257", lanes(128)),
    ]
}

fn repeated(part: &[u8], times: usize, end: u8) -> Vec<u8> {
    let mut tree = part.repeat(times);
    tree.push(end);
    tree
}

/// What the program has to print, by the second interpreter; the library has to agree.
fn lines(noise: &mut Random) -> Result<String, String> {
    let mut text = String::new();
    for (name, patch) in patches() {
        let call = Call::roomy(Operation::Check, vec![patch]);
        let answer = compare(&call, noise)?.answer;
        text += &format!("{name}: {}\n", answer.number);
    }
    Ok(text)
}

/// Holds the stored output of the program to the second interpreter's answers.
pub fn compare_stored(noise: &mut Random) -> Result<(), Stop> {
    let file = Path::new(env!("CARGO_MANIFEST_DIR")).join("../../crates/limits/stdout");
    let stored = std::fs::read_to_string(&file)
        .map_err(|error| Stop::Unusable(format!("{}: {error}", file.display())))?;
    let expected = lines(noise).map_err(Stop::Difference)?;
    if stored == expected {
        Ok(())
    } else {
        Err(Stop::Difference(format!(
            "case 10: crates/limits/stdout has\n{stored}the second interpreter answers\n{expected}"
        )))
    }
}
