//! What the laws read off the bits of a flonum, by integers and apart from the second implementation.

pub const SIGN: u64 = 1 << 63;
pub const NAN: u64 = 0x7FF8_0000_0000_0000;
pub const INFINITY: u64 = 0x7FF0_0000_0000_0000;
/// From here on every finite number is whole: 2^52.
pub const FIRST_WHOLE: u64 = 0x4330_0000_0000_0000;
/// One, in the units of `fixed`.
pub const ONE: i128 = 1 << 60;

/// Whether x is a NaN.
pub fn is_nan(x: u64) -> bool {
    x & !SIGN > INFINITY
}

/// Whether x is below 2^52 in magnitude, so that it may have a fraction.
pub fn is_small(x: u64) -> bool {
    x & !SIGN < FIRST_WHOLE
}

/// Whether x is at most y, neither of them a NaN.
pub fn at_most(x: u64, y: u64) -> bool {
    position(x) <= position(y)
}

/// Whether they are equal as numbers, or both a NaN.
pub fn same_value(x: u64, y: u64) -> bool {
    (is_nan(x) && is_nan(y)) || (!is_nan(x) && !is_nan(y) && position(x) == position(y))
}

/// Flonums that are no NaN stand in the order of these integers, and both zeros at 0.
fn position(x: u64) -> i64 {
    let distance = (x & !SIGN) as i64;
    [distance, -distance][(x >> 63) as usize]
}

/// x, below 2^66 in magnitude, in units of 2^-60. A magnitude below 2^-8 may lie between two units: it is taken as the
/// greater, so that no number but zero becomes zero.
pub fn fixed(x: u64) -> i128 {
    let exponent = (x & !SIGN) >> 52;
    let significand = i128::from((x & ((1 << 52) - 1)) | if exponent == 0 { 0 } else { 1 << 52 });
    let magnitude = match exponent {
        // 1015 is 1023 + 52 - 60, the exponent at which the last bit is one unit.
        1015.. => significand << (exponent - 1015),
        _ if significand == 0 => 0,
        _ => (significand >> (1015 - exponent).min(64)) + 1,
    };
    [magnitude, -magnitude][(x >> 63) as usize]
}

/// The whole number that x, below 2^66 in magnitude, is; or none if it has a fraction.
pub fn whole(x: u64) -> Option<i128> {
    let fixed = fixed(x);
    (fixed % ONE == 0).then_some(fixed / ONE)
}
