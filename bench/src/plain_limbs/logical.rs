//! The operations that go bit by bit.

use super::{limb, padding, shortest};

#[inline(never)]
pub fn not(x: &[u32], out: &mut [u32]) -> usize {
    for (result, &a) in out[..x.len()].iter_mut().zip(x) {
        *result = !a;
    }
    shortest(&out[..x.len()])
}

#[inline(never)]
pub fn and(x: &[u32], y: &[u32], out: &mut [u32]) -> usize {
    combine(x, y, out, |a, b| a & b)
}

#[inline(never)]
pub fn ior(x: &[u32], y: &[u32], out: &mut [u32]) -> usize {
    combine(x, y, out, |a, b| a | b)
}

#[inline(never)]
pub fn xor(x: &[u32], y: &[u32], out: &mut [u32]) -> usize {
    combine(x, y, out, |a, b| a ^ b)
}

/// Limbs that both operands have, and then those of the longer one with the padding of the other.
fn combine(x: &[u32], y: &[u32], out: &mut [u32], operation: impl Fn(u32, u32) -> u32) -> usize {
    let common = x.len().min(y.len());
    let longest = x.len().max(y.len());
    let (low, high) = out[..longest].split_at_mut(common);
    for ((result, &a), &b) in low.iter_mut().zip(x).zip(y) {
        *result = operation(a, b);
    }
    let (x_padding, y_padding) = (padding(x), padding(y));
    for (result, &a) in high.iter_mut().zip(&x[common..]) {
        *result = operation(a, y_padding);
    }
    for (result, &b) in high.iter_mut().zip(&y[common..]) {
        *result = operation(x_padding, b);
    }
    shortest(&out[..longest])
}

/// Bits of y where x has ones, of z where it has zeros.
#[inline(never)]
pub fn if_(x: &[u32], y: &[u32], z: &[u32], out: &mut [u32]) -> usize {
    let common = x.len().min(y.len()).min(z.len());
    let longest = x.len().max(y.len()).max(z.len());
    let (low, high) = out[..longest].split_at_mut(common);
    for (((result, &a), &b), &c) in low.iter_mut().zip(x).zip(y).zip(z) {
        *result = a & b | !a & c;
    }
    for (result, j) in high.iter_mut().zip(common..) {
        let a = limb(x, j);
        *result = a & limb(y, j) | !a & limb(z, j);
    }
    shortest(&out[..longest])
}
