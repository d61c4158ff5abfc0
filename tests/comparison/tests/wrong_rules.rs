//! Wrong rules for cues and levels are found by the calls that the comparison draws.

mod trying;

use comparison::formats::files::{LONGEST_PATCH_FILE, LONGEST_SLICE_FILE};
use comparison::other_rules::Rule;
use comparison::{Call, Operation};
use trying::{found_at, must_be_found};

/// What an accepted feed writes, by the second interpreter; none for another call.
fn written(call: &Call) -> Option<[Vec<u8>; 2]> {
    let [patch, slice] = call.files.as_slice() else {
        return None;
    };
    if call.operation != Operation::Feed {
        return None;
    }
    let (mut output, mut left) = (vec![0; LONGEST_SLICE_FILE], vec![0; LONGEST_PATCH_FILE]);
    let fed = second_interpreter::feed(patch, slice, &mut output, &mut left).ok()?;
    output.truncate(fed.output);
    left.truncate(fed.patch);
    Some([output, left])
}

/// Whether a call tells the rule from the right one.
fn is_found_by(rule: Rule, call: &Call) -> bool {
    written(call).is_some_and(|files| rule.feed(&call.files[0], &call.files[1]) != Some(files))
}

#[test]
fn every_wrong_rule_is_found() {
    for rule in Rule::WRONG {
        must_be_found(rule.name, |call| is_found_by(rule, call));
    }
}

/// Without this a feed that is wrong in other ways, too, would be found for these.
#[test]
fn the_right_rule_is_held_right() {
    assert_eq!(found_at(|call| is_found_by(Rule::RIGHT, call)), None);
}
