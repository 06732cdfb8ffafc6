//! Every call of one flonum on each number that the rules name, on both signs, on every exponent, and on NaNs.

use crate::checker::Checker;
use quebralua_reference::flonum_values::{FIRST_WHOLE, HALF, LAST_HALF, SPECIAL};
use quebralua_reference::reference::flonum::conversion::nearest;
use quebralua_reference::reference::flonum::{FRACTION_BITS, HIDDEN, INFINITY, SIGN};

pub fn run(checker: &mut Checker) {
    for x in SPECIAL.into_iter().chain(halves()).chain(last_fractions()).chain(nans()) {
        both_signs(checker, x);
    }
    for exponent in 0..=INFINITY >> FRACTION_BITS {
        for fraction in fractions() {
            both_signs(checker, (exponent << FRACTION_BITS) | fraction);
        }
    }
}

fn both_signs(checker: &mut Checker, x: u64) {
    checker.edge_unary(x);
    checker.edge_unary(x ^ SIGN);
}

/// From 0 to 100 in steps of 1/4, and the neighbours of each.
fn halves() -> impl Iterator<Item = u64> {
    (1..=400).flat_map(|quarters| {
        let x = nearest(quarters) - 2 * HIDDEN;
        [x - 1, x, x + 1]
    })
}

/// The flonums around 1/2, 2^51, 2^52 and 2^53.
fn last_fractions() -> impl Iterator<Item = u64> {
    let centres = [HALF, LAST_HALF - (1 << FRACTION_BITS), LAST_HALF, FIRST_WHOLE + (1 << FRACTION_BITS)];
    centres.into_iter().flat_map(|x| x - 16..=x + 16)
}

/// Each payload bit alone, and all but it, with quiet and signalling NaNs; all ones is among `fractions`.
fn nans() -> impl Iterator<Item = u64> {
    (0..FRACTION_BITS).flat_map(|bit| {
        let [quiet, one, others] = [1 << (FRACTION_BITS - 1), 1 << bit, (HIDDEN - 1) ^ (1 << bit)];
        [one, one | quiet, others, others | quiet].map(|fraction| INFINITY | fraction)
    })
}

/// At each place of the fraction: one bit, two bits, and all from there up; and the neighbours of these.
fn fractions() -> impl Iterator<Item = u64> {
    let shapes = (0..FRACTION_BITS).flat_map(|place| [1, 3, HIDDEN - 1].map(|ones| ones << place));
    shapes.flat_map(|shape| [shape - 1, shape, shape + 1]).map(|fraction| fraction % HIDDEN)
}
