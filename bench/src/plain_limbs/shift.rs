//! The shifts.

use super::{shortest, windows};

/// The floor of x 2^distance.
#[inline(never)]
pub fn shift(x: &[u32], distance: i64, out: &mut [u32]) -> usize {
    let by = distance.unsigned_abs() as usize;
    if distance < 0 {
        shift_right(x, by, out)
    } else {
        shift_left(x, by, out)
    }
}

#[inline(never)]
pub fn shift_left(x: &[u32], by: usize, out: &mut [u32]) -> usize {
    let (limbs, bits) = (by / 32, by % 32);
    let length = x.len() + limbs + 1;
    out[..limbs].fill(0);
    out[limbs] = x[0] << bits;
    windows(x, 32 - bits, &mut out[limbs + 1..length]);
    shortest(&out[..length])
}

#[inline(never)]
pub fn shift_right(x: &[u32], by: usize, out: &mut [u32]) -> usize {
    let length = x.len().saturating_sub(by / 32).max(1);
    windows(x, by, &mut out[..length]);
    shortest(&out[..length])
}
