//! fixnum->flonum: nearest, ties to even.

use super::{BIAS, FRACTION_BITS, HIDDEN, SIGN};
use crate::reference::width::{is_fixnum, is_width};
use crate::refusal::{NOT_FIXNUM, WIDTH};

pub fn fixnum_to_flonum(width: u64, n: i64) -> Result<u64, u64> {
    if !is_width(width) {
        return Err(WIDTH);
    }
    if !is_fixnum(width, i128::from(n)) {
        return Err(NOT_FIXNUM);
    }
    let sign = if n < 0 { SIGN } else { 0 };
    Ok(sign | nearest(n.unsigned_abs()))
}

/// The flonum that is nearest to the whole number.
pub fn nearest(n: u64) -> u64 {
    let length = u64::from(u64::BITS - n.leading_zeros());
    if length == 0 {
        return 0;
    }
    let significand = match length.checked_sub(FRACTION_BITS + 1) {
        None | Some(0) => n << (FRACTION_BITS + 1 - length),
        Some(dropped) => half_even(n, dropped),
    };
    // A significand that was rounded up to 2^53 carries into the exponent, and its fraction is 0.
    ((BIAS + length - 1) << FRACTION_BITS) + (significand - HIDDEN)
}

/// n / 2^places, 1 to 63 of them, as the nearest whole number; of two that are as near, the even one.
pub fn half_even(n: u64, places: u64) -> u64 {
    let (whole, rest, half) = (n >> places, n & ((1 << places) - 1), 1 << (places - 1));
    if rest > half || (rest == half && whole % 2 == 1) {
        whole + 1
    } else {
        whole
    }
}
