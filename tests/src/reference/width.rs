//! The accepted widths, and what a fixnum is at one. The limits of the widths stand here alone.

use std::ops::RangeInclusive;

/// The widths that a call accepts.
pub const WIDTHS: RangeInclusive<u64> = 24..=64;

/// The width at which every number that can be given is a fixnum.
pub const WHOLE_WORD: u64 = i64::BITS as u64;

pub fn is_width(width: u64) -> bool {
    WIDTHS.contains(&width)
}

pub fn is_fixnum(width: u64, x: i128) -> bool {
    let limit = 1i128 << (width - 1);
    -limit <= x && x < limit
}
