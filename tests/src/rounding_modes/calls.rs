//! The calls that are made in each rounding mode.

use quebralua_reference::flonum_call::{FlonumCall, FlonumOperation};
use quebralua_reference::flonum_values::SPECIAL;
use quebralua_reference::reference::flonum::SIGN;

/// Fixnums that are no flonums, of both signs, beside some that are; refused calls; and numbers with fractions.
pub fn calls() -> Vec<FlonumCall> {
    let n = 1i64 << 53;
    let fixnums = [0, 1, 7, n - 1, n, n + 1, n + 2, n + 3, 2 * n + 1, 2 * n + 2, 2 * n + 3, i64::MAX - 512, i64::MAX];
    let fixnums = fixnums.into_iter().flat_map(|n| [n, -n]).chain([i64::MIN, i64::MIN + 1]);
    let conversions = fixnums.map(|n| FlonumCall::fixnum_to_flonum(64, n));
    let refused = [(23, 7), (65, n + 1), (24, 1 << 23), (54, n), (54, n + 1)];
    let refused = refused.into_iter().map(|(width, n)| FlonumCall::fixnum_to_flonum(width, n));
    let flonums = || SPECIAL.into_iter().flat_map(|x| [x, x ^ SIGN]);
    let unary = FlonumOperation::UNARY.into_iter().flat_map(|of| flonums().map(move |x| FlonumCall::unary(of, x)));
    let pairs = flonums().flat_map(|x| SPECIAL.map(|y| [x, y, x ^ SIGN, y ^ SIGN]));
    let extremes = pairs.flat_map(|flonums| [0, 1, 2, 3, 4, 5].map(|count| FlonumCall::extremes(count, flonums)));
    conversions.chain(refused).chain(unary).chain(extremes).collect()
}
