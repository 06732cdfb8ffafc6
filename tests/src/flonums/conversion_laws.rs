//! The laws of fixnum->flonum, over whole numbers.

use super::asked::{converted, flonum, require, require_unary};
use super::exact::{at_most, whole, SIGN};
use super::Sample;
use crate::checker::Checker;
use quebralua_reference::fixnum_arguments::{greatest, least};
use quebralua_reference::flonum_call::{FlonumCall, FlonumOperation};
use quebralua_reference::reference::width::WIDTHS;

/// Up to this magnitude every whole number is a flonum.
const EXACT: u64 = 1 << 53;

/// A fixnum up to 2^53 becomes the flonum that is it.
pub fn exact(checker: &mut Checker, &Sample { width, n, m, .. }: &Sample) -> u64 {
    let mut compared = 0;
    for n in [n, m, n >> 10, m >> 10].into_iter().filter(|n| n.unsigned_abs() <= EXACT) {
        let x = converted(checker, width, n);
        require(whole(x) == Some(i128::from(n)), "that number", &[FlonumCall::fixnum_to_flonum(width, n)], &[x]);
        compared += 1;
    }
    compared
}

/// A fixnum beyond becomes a flonum to which no neighbour is closer; if one is as near, the last bit is 0. There every
/// flonum is whole.
pub fn nearest(checker: &mut Checker, &Sample { width, n, .. }: &Sample) -> u64 {
    if n.unsigned_abs() <= EXACT {
        return 0;
    }
    let x = converted(checker, width, n);
    let distances = [x, x - 1, x + 1].map(|x| whole(x).map(|whole| (whole - i128::from(n)).abs()));
    let holds = match distances {
        [Some(chosen), Some(below), Some(above)] => {
            let other = below.min(above);
            chosen < other || (chosen == other && x % 2 == 0)
        }
        _ => false,
    };
    require(holds, "no flonum is closer", &[FlonumCall::fixnum_to_flonum(width, n)], &[x]);
    1
}

/// Of two fixnums, also of neighbours, the smaller does not become the greater flonum.
pub fn in_order(checker: &mut Checker, &Sample { width, n, m, .. }: &Sample) -> u64 {
    let next = n.saturating_add(1).min(greatest(width));
    for (smaller, larger) in [(n.min(m), n.max(m)), (n, next)] {
        let answers = [smaller, larger].map(|n| converted(checker, width, n));
        let calls = [smaller, larger].map(|n| FlonumCall::fixnum_to_flonum(width, n));
        require(at_most(answers[0], answers[1]), "the first at most the second", &calls, &answers);
    }
    2
}

/// The opposite fixnum becomes the opposite flonum. 0 becomes 0.0.
pub fn opposite(checker: &mut Checker, &Sample { width, n, .. }: &Sample) -> u64 {
    if n == least(width) {
        return 0;
    }
    let answers = [n, -n].map(|n| converted(checker, width, n));
    let holds = if n == 0 { answers == [0, 0] } else { answers[0] == answers[1] ^ SIGN };
    let calls = [n, -n].map(|n| FlonumCall::fixnum_to_flonum(width, n));
    require(holds, "opposite flonums, or 0.0", &calls, &answers);
    1
}

/// At every greater width a fixnum becomes the same flonum.
pub fn greater_widths(checker: &mut Checker, &Sample { width, n, .. }: &Sample) -> u64 {
    let expected = converted(checker, width, n);
    for greater in width..=*WIDTHS.end() {
        let got = converted(checker, greater, n);
        let calls = [width, greater].map(|width| FlonumCall::fixnum_to_flonum(width, n));
        require(expected == got, "the same flonum", &calls, &[expected, got]);
    }
    WIDTHS.end() - width
}

/// Every rounding leaves what a fixnum becomes.
pub fn whole_stays(checker: &mut Checker, &Sample { width, n, .. }: &Sample) -> u64 {
    let x = converted(checker, width, n);
    for operation in FlonumOperation::ROUNDINGS {
        let rounded = flonum(checker, operation, x);
        require_unary(rounded == x, "the flonum itself", &[operation], x, &[rounded]);
    }
    4
}
