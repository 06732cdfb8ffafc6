//! The bitwise operations in plain Rust on slices of limbs, for comparison. Operands have at least one limb. A result is
//! written at the start of `out`, which has room for the longer operand or the field and one limb more; the answer is
//! the length of its shortest form.

mod count;
mod field;
mod logical;
mod shift;

pub use count::{bit_count, bit_set, first_bit_set, length};
pub use field::{bit_field, copy_bit, copy_bit_field, reverse, rotate};
pub use logical::{and, if_, ior, not, xor};
pub use shift::{shift, shift_left, shift_right};

/// The limb that continues x past its last one.
fn padding(x: &[u32]) -> u32 {
    if x[x.len() - 1] >> 31 == 1 {
        u32::MAX
    } else {
        0
    }
}

fn limb(x: &[u32], j: usize) -> u32 {
    x.get(j).copied().unwrap_or_else(|| padding(x))
}

/// How many limbs the shortest form has.
pub fn shortest(limbs: &[u32]) -> usize {
    let sign = padding(limbs);
    match limbs.iter().rposition(|&limb| limb != sign) {
        None => 1,
        Some(j) if (limbs[j] ^ sign) >> 31 == 1 => j + 2,
        Some(j) => j + 1,
    }
}

/// x without its padding.
pub fn trim(x: &[u32], out: &mut [u32]) -> usize {
    let length = shortest(x);
    out[..length].copy_from_slice(&x[..length]);
    length
}

/// 32 bits of two limbs, from bit k of the lower one on.
fn join(low: u32, high: u32, k: usize) -> u32 {
    ((u64::from(high) << 32 | u64::from(low)) >> k) as u32
}

/// The 32 bits of x from a position on.
fn window(x: &[u32], at: usize) -> u32 {
    let j = at / 32;
    join(limb(x, j), limb(x, j + 1), at % 32)
}

/// The bits of x from a position on, as many as `out` has room for.
fn windows(x: &[u32], at: usize, out: &mut [u32]) {
    let (i, k) = (at / 32, at % 32);
    let inner = x.len().saturating_sub(i + 1).min(out.len());
    let (inside, beyond) = out.split_at_mut(inner);
    for (limb, pair) in inside.iter_mut().zip(x.get(i..).unwrap_or(&[]).windows(2)) {
        *limb = join(pair[0], pair[1], k);
    }
    for (j, limb) in beyond.iter_mut().enumerate() {
        *limb = window(x, at + 32 * (inner + j));
    }
}
