//! The smallest and the largest of every four of some numbers, at every count: so zeros of unlike sign stand in each
//! order, NaNs in each place, and NaNs and other numbers beyond the count.

use crate::checker::Checker;
use quebralua_reference::flonum_call::FlonumCall;
use quebralua_reference::flonum_values::{FIRST_WHOLE, GREATEST, HALF, LARGEST_SUBNORMAL, ONE, SMALLEST, SPECIAL};
use quebralua_reference::reference::flonum::{INFINITY, NAN, SIGN};

const COUNTS: [u64; 10] = [0, 1, 2, 3, 4, 5, 6, 1 << 32, (1 << 32) + 1, u64::MAX];

/// Two NaNs, one of them signalling and with its sign set.
const FEW: [u64; 9] =
    [0, SIGN, ONE, SIGN | ONE, INFINITY, SIGN | INFINITY, NAN | 0x5AFE, SIGN | INFINITY | 1, SMALLEST];

/// Numbers that are next to each other, and of each sign.
const NEAR: [u64; 7] = [ONE, ONE + 1, ONE - 1, SIGN | (ONE + 1), SIGN | (ONE - 1), LARGEST_SUBNORMAL, SIGN | SMALLEST];

const FAR: [u64; 6] = [HALF, SIGN | HALF, GREATEST, SIGN | GREATEST, FIRST_WHOLE, SIGN | FIRST_WHOLE];

pub fn run(checker: &mut Checker) {
    for values in [&FEW[..], &NEAR, &FAR] {
        every_four(checker, values);
    }
    for x in SPECIAL {
        for y in SPECIAL {
            for flonums in [[x, y, x, y], [y, x, x, x], [x, x, y, y], [x, x, x, y]] {
                every_count(checker, flonums);
            }
        }
    }
}

fn every_four(checker: &mut Checker, values: &[u64]) {
    for &a in values {
        for &b in values {
            for &c in values {
                values.iter().for_each(|&d| every_count(checker, [a, b, c, d]));
            }
        }
    }
}

fn every_count(checker: &mut Checker, flonums: [u64; 4]) {
    for count in COUNTS {
        checker.edge_flonum(&FlonumCall::extremes(count, flonums));
    }
}
