//! Wrong rules for totals are found by the calls that the comparison draws.

mod trying;

use comparison::other_totals::Rule;
use trying::{found_at, must_be_found};

#[test]
fn every_wrong_rule_is_found() {
    for rule in Rule::WRONG {
        must_be_found(rule.name, |call| rule.is_found_by(call));
    }
}

/// Without this totals that are wrong in other ways, too, would be found for these.
#[test]
fn the_right_rule_is_held_right() {
    assert_eq!(found_at(|call| Rule::RIGHT.is_found_by(call)), None);
}
