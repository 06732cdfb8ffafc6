//! The laws of the four roundings as numbers.

use super::asked::{flonum, require, require_unary};
use super::exact::{at_most, fixed, is_nan, is_small, whole, ONE, SIGN};
use super::Sample;
use crate::checker::Checker;
use quebralua_reference::flonum_call::FlonumCall;
use quebralua_reference::flonum_call::FlonumOperation::{self, *};

const ROUNDINGS: [FlonumOperation; 4] = FlonumOperation::ROUNDINGS;

/// x is not below its floor nor above its ceiling, and each of the other two roundings is one of these.
pub fn between(checker: &mut Checker, &Sample { x, .. }: &Sample) -> u64 {
    if is_nan(x) {
        return 0;
    }
    let answers @ [floor, ceiling, truncate, round] = ROUNDINGS.map(|operation| flonum(checker, operation, x));
    let is_one = |answer| answer == floor || answer == ceiling;
    let holds = at_most(floor, x) && at_most(x, ceiling) && is_one(truncate) && is_one(round);
    require_unary(holds, "floor <= x <= ceiling, the others one of these", &ROUNDINGS, x, &answers);
    1
}

/// Floor and ceiling are whole; they are x if that is whole, and one apart if not. From 2^52 on they are x.
pub fn one_apart(checker: &mut Checker, &Sample { x, .. }: &Sample) -> u64 {
    if is_nan(x) {
        return 0;
    }
    let [floor, ceiling] = [Floor, Ceiling].map(|operation| flonum(checker, operation, x));
    let holds = if !is_small(x) {
        [floor, ceiling] == [x, x]
    } else {
        match (whole(x), whole(floor), whole(ceiling)) {
            (Some(x), Some(floor), Some(ceiling)) => floor == x && ceiling == x,
            (None, Some(floor), Some(ceiling)) => ceiling - floor == 1,
            _ => false,
        }
    };
    require_unary(holds, "0 or 1 apart", &[Floor, Ceiling], x, &[floor, ceiling]);
    1
}

/// Truncate is the floor of a positive number and the ceiling of a negative one.
pub fn toward_zero(checker: &mut Checker, &Sample { x, .. }: &Sample) -> u64 {
    let other = if x & SIGN == 0 { Floor } else { Ceiling };
    let answers = [Truncate, other].map(|operation| flonum(checker, operation, x));
    require_unary(answers[0] == answers[1], "the same flonum", &[Truncate, other], x, &answers);
    1
}

/// Round is at most 1/2 away, and even where it is just that.
pub fn nearest(checker: &mut Checker, &Sample { x, .. }: &Sample) -> u64 {
    if !is_small(x) {
        return 0;
    }
    let round = flonum(checker, Round, x);
    let distance = (fixed(x) - fixed(round)).abs();
    let is_even = whole(round).is_some_and(|n| n % 2 == 0);
    let holds = 2 * distance < ONE || (2 * distance == ONE && is_even);
    require_unary(holds, "at most 1/2 away, and even if just that", &[Round], x, &[round]);
    1
}

/// Every rounding leaves what a rounding has answered.
pub fn rounded_twice(checker: &mut Checker, &Sample { x, .. }: &Sample) -> u64 {
    for first in ROUNDINGS {
        let once = flonum(checker, first, x);
        for second in ROUNDINGS {
            let twice = flonum(checker, second, once);
            require_unary(once == twice, "the flonum itself", &[second], once, &[twice]);
        }
    }
    16
}

/// Of two numbers the smaller is not rounded to the greater whole number.
pub fn in_order(checker: &mut Checker, &Sample { x, y, .. }: &Sample) -> u64 {
    if is_nan(x) || is_nan(y) {
        return 0;
    }
    let (x, y) = if at_most(x, y) { (x, y) } else { (y, x) };
    for operation in ROUNDINGS {
        let answers = [x, y].map(|x| flonum(checker, operation, x));
        let calls = [x, y].map(|x| FlonumCall::unary(operation, x));
        require(at_most(answers[0], answers[1]), "the first at most the second", &calls, &answers);
    }
    4
}
