//! The operations on a field: the bits from start up to, but not at, end.

use super::{join, limb, padding, shortest, window, windows};

/// x with the bit at a position replaced.
#[inline(never)]
pub fn copy_bit(x: &[u32], position: usize, bit: u32, out: &mut [u32]) -> usize {
    let result = &mut out[..length_with(x, position + 1)];
    extend(x, result);
    merge(&mut result[position / 32], bit << (position % 32), 1 << (position % 32));
    shortest(result)
}

/// The field as a number.
#[inline(never)]
pub fn bit_field(x: &[u32], start: usize, end: usize, out: &mut [u32]) -> usize {
    let size = end - start;
    let result = &mut out[..size / 32 + 1];
    windows(x, start, result);
    result[size / 32] &= (1 << (size % 32)) - 1;
    shortest(result)
}

/// x with the field replaced by the low bits of y.
#[inline(never)]
pub fn copy_bit_field(x: &[u32], start: usize, end: usize, y: &[u32], out: &mut [u32]) -> usize {
    let result = &mut out[..length_with(x, end)];
    extend(x, result);
    copy_bits(y, 0, result, start, end - start);
    shortest(result)
}

/// x with the field rotated towards the high end, by a count of at most its size.
#[inline(never)]
pub fn rotate(x: &[u32], start: usize, end: usize, count: usize, out: &mut [u32]) -> usize {
    let result = &mut out[..length_with(x, end)];
    extend(x, result);
    copy_bits(x, end - count, result, start, count);
    copy_bits(x, start, result, start + count, end - start - count);
    shortest(result)
}

/// x with the field's bits in the opposite order.
#[inline(never)]
pub fn reverse(x: &[u32], start: usize, end: usize, out: &mut [u32]) -> usize {
    let result = &mut out[..length_with(x, end)];
    extend(x, result);
    for (j, limb) in result.iter_mut().enumerate().take(end.div_ceil(32)).skip(start / 32) {
        let mirrored = window_from(x, (start + end) as isize - 32 * j as isize - 32).reverse_bits();
        let from = start.saturating_sub(32 * j);
        let to = (end - 32 * j).min(32);
        merge(limb, mirrored, ones(from, to));
    }
    shortest(result)
}

/// How many limbs are enough for x with a field up to `end`.
fn length_with(x: &[u32], end: usize) -> usize {
    x.len().max(end / 32 + 1)
}

/// x, continued by its sign.
fn extend(x: &[u32], out: &mut [u32]) {
    out[..x.len()].copy_from_slice(x);
    out[x.len()..].fill(padding(x));
}

/// Ones from one bit of a limb up to, but not at, another.
fn ones(from: usize, to: usize) -> u32 {
    ((1u64 << to) - (1u64 << from.min(to))) as u32
}

/// Replaces the bits of the mask.
fn merge(limb: &mut u32, bits: u32, mask: u32) {
    *limb = *limb & !mask | bits & mask;
}

/// The 32 bits of x from a position on, which may lie up to 32 below its first bit; zeros are there.
fn window_from(x: &[u32], at: isize) -> u32 {
    if at < 0 {
        join(0, limb(x, 0), (32 + at) as usize)
    } else {
        window(x, at as usize)
    }
}

/// Puts bits of x, from a position on, into `out` from a position on.
fn copy_bits(x: &[u32], from: usize, out: &mut [u32], to: usize, size: usize) {
    if size == 0 {
        return;
    }
    let (first, bit) = (to / 32, to % 32);
    let (last, end) = ((to + size - 1) / 32, (to + size - 1) % 32 + 1);
    let below = window(x, from) << bit;
    if first == last {
        return merge(&mut out[first], below, ones(bit, end));
    }
    merge(&mut out[first], below, ones(bit, 32));
    let next = from + 32 - bit;
    windows(x, next, &mut out[first + 1..last]);
    merge(&mut out[last], window(x, next + 32 * (last - first - 1)), ones(0, end));
}
