//! Which call that the comparison draws tells a rule from the right one.

use comparison::{Call, Calls};

/// The seed of the gate's comparison.
const SEED: u64 = 7;

/// Within so many calls a rule is found, or it is not: a fiftieth of what the gate makes.
const MOST_CALLS: usize = 10_000;

/// The number of the first call at which the rule answers otherwise than the right one.
pub fn found_at(differs: impl Fn(&Call) -> bool) -> Option<usize> {
    let mut calls = Calls::new(SEED).take(MOST_CALLS);
    Some(1 + calls.position(|call| differs(&call))?)
}

/// A wrong rule has to be found; this says at which call.
pub fn must_be_found(name: &str, differs: impl Fn(&Call) -> bool) {
    let call = found_at(differs);
    assert!(call.is_some(), "not found: {name}");
    println!("{name}: found at call {}", call.unwrap_or_default());
}
