//! The operations that answer a number.

use super::{limb, padding};

/// The ones of x; for a negative x, not of the ones of not x.
#[inline(never)]
pub fn bit_count(x: &[u32]) -> i64 {
    let sign = padding(x);
    let ones: u32 = x.iter().map(|limb| (limb ^ sign).count_ones()).sum();
    if sign == 0 {
        i64::from(ones)
    } else {
        !i64::from(ones)
    }
}

/// The bits of x, or of not x for a negative x, without leading zeros.
#[inline(never)]
pub fn length(x: &[u32]) -> i64 {
    let sign = padding(x);
    let top = x.iter().rposition(|&limb| limb != sign);
    top.map_or(0, |j| 32 * j as i64 + 32 - i64::from((x[j] ^ sign).leading_zeros()))
}

/// The position of the lowest one; -1 for 0.
#[inline(never)]
pub fn first_bit_set(x: &[u32]) -> i64 {
    let lowest = x.iter().position(|&limb| limb != 0);
    lowest.map_or(-1, |j| 32 * j as i64 + i64::from(x[j].trailing_zeros()))
}

#[inline(never)]
pub fn bit_set(x: &[u32], position: usize) -> i64 {
    i64::from(limb(x, position / 32) >> (position % 32) & 1)
}
