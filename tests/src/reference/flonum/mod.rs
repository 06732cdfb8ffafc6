//! Flonums as the bits of 64-bit IEEE numbers, and the calls on them, by integers alone.
//!
//! From the top: one sign bit, eleven bits of exponent, 52 of fraction. The magnitude is the bits without the sign.

pub mod conversion;
pub mod extremes;
pub mod rounding;

pub const SIGN: u64 = 1 << 63;
pub const FRACTION_BITS: u64 = 52;
/// The bit above the fraction, which stands in the significand of a number with an exponent from 1 up.
pub const HIDDEN: u64 = 1 << FRACTION_BITS;
/// The exponent of 1.0.
pub const BIAS: u64 = 1023;
/// The positive infinity. The magnitude of every NaN is greater.
pub const INFINITY: u64 = 0x7FF << FRACTION_BITS;
/// The NaN that calls answer.
pub const NAN: u64 = 0x7FF8_0000_0000_0000;

pub fn magnitude(x: u64) -> u64 {
    x & !SIGN
}

pub fn is_negative(x: u64) -> bool {
    x & SIGN != 0
}

pub fn is_nan(x: u64) -> bool {
    magnitude(x) > INFINITY
}

pub fn is_finite(x: u64) -> bool {
    magnitude(x) < INFINITY
}

pub fn abs(x: u64) -> u64 {
    canonical(magnitude(x))
}

/// The same number; the one NaN for every NaN.
pub fn canonical(x: u64) -> u64 {
    if is_nan(x) {
        NAN
    } else {
        x
    }
}

/// A finite number is significand / 2^places, where places may be negative; its sign aside.
pub fn significand_and_places(x: u64) -> (u64, i64) {
    let (exponent, fraction) = (magnitude(x) >> FRACTION_BITS, x & (HIDDEN - 1));
    let last_place = (BIAS + FRACTION_BITS) as i64;
    match exponent {
        0 => (fraction, last_place - 1),
        _ => (HIDDEN + fraction, last_place - exponent as i64),
    }
}

/// The order of numbers that are no NaN, as an integer; the same for -0.0 and 0.0.
pub fn order(x: u64) -> i64 {
    let distance = magnitude(x) as i64;
    if is_negative(x) {
        -distance
    } else {
        distance
    }
}
