//! Random totals of a patch, and the damage that is done to their section.

use second_interpreter::Totals;

use crate::calls::counts::Counts;
use crate::formats::files::set_count;
use crate::formats::totals::{GREATEST_TOTAL, TOTALS_BYTES};
use crate::generators::random::Random;

/// So many of a hundred patches were never fed, as far as their totals tell.
const NEVER_FED: usize = 50;

/// The totals of a patch: 0, about the greatest, or any, each for itself.
pub fn any_totals(random: &mut Random) -> Totals {
    if random.chance(NEVER_FED) {
        return Totals::default();
    }
    Totals {
        arrived: any_total(random),
        sent: any_total(random),
    }
}

fn any_total(random: &mut Random) -> u32 {
    match random.below(10) {
        0 => 0,
        1 => random.below(1_000) as u32,
        2..=3 => random.number() as u32,
        4 => below_a_higher_byte(random),
        _ => GREATEST_TOTAL - little(random, 300),
    }
}

/// Little more makes the second byte greater, the third or the highest.
fn below_a_higher_byte(random: &mut Random) -> u32 {
    random.pick(&[1 << 8, 1 << 16, 1 << 24, 1 << 31]) - 1 - little(random, 128)
}

/// At most so much, and often next to nothing: most slices bring little.
fn little(random: &mut Random, most: usize) -> u32 {
    let most = random.pick(&[0, 3, 20, most]);
    random.below(most + 1) as u32
}

/// The totals of a patch for a run: mostly 0, and often so far below the greatest, or below where a
/// higher byte changes, that what comes passes it on the way.
pub fn totals_for_a_run(random: &mut Random) -> Totals {
    let near = GREATEST_TOTAL - on_the_way(random);
    let (arrived, sent) = match random.below(20) {
        0 => return any_totals(random),
        1..=2 => (below_a_higher_byte(random), below_a_higher_byte(random)),
        3 => (near, 0),
        4 => (0, near),
        5 => (near, GREATEST_TOTAL - on_the_way(random)),
        6..=8 => (near, near),
        _ => (0, 0),
    };
    Totals { arrived, sent }
}

/// At most as much as comes in a stream, and mostly little.
fn on_the_way(random: &mut Random) -> u32 {
    let most = random.pick(&[3, 10, 20, 128]);
    random.below(most + 1) as u32
}

/// Totals with which these counts come to the greatest, pass it by little or stay below it; often
/// one of the two alone is about it.
pub fn totals_about(random: &mut Random, counts: Counts) -> Totals {
    let mut totals = Totals {
        arrived: total_about(random, counts.arrived),
        sent: total_about(random, counts.sent),
    };
    match random.below(4) {
        0 => totals.arrived = any_total(random),
        1 => totals.sent = any_total(random),
        _ => {}
    }
    totals
}

fn total_about(random: &mut Random, count: u32) -> u32 {
    let greatest = GREATEST_TOTAL - count;
    match random.below(5) {
        0..=1 => greatest,
        2 => greatest.saturating_add(1),
        3 => greatest - 1,
        _ => GREATEST_TOTAL - little(random, 300),
    }
}

/// Damages the section of a patch's totals: nothing is left of it but a byte at the most, or its count
/// and the bytes behind that are too few, too many or as many as the other says.
pub fn damage_totals(random: &mut Random, section: &mut Vec<u8>) {
    if random.chance(20) {
        section.truncate(random.below(2));
        return;
    }
    let any_fewer = random.below(TOTALS_BYTES);
    let fewer = random.pick(&[0, any_fewer, any_fewer]);
    let more = random.between(TOTALS_BYTES + 1, 300);
    // The low byte of the last one is that of the right count.
    let counted = random.pick(&[7, 8, 8, 9, 9, fewer, more, 256 + TOTALS_BYTES]);
    let there = random.pick(&[7, 8, 9, 10, fewer, counted, counted, counted + 1]);
    section.resize(2 + there, random.byte());
    set_count(section, counted);
}
