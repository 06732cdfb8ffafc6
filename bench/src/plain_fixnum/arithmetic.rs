//! Sums, differences and products, exact or with a carry.

use super::{check, is_fixnum, low_bits, Answer};
use crate::binding::Refusal;

pub fn add(width: u64, x: i64, y: i64) -> Answer {
    check(width, [x, y])?;
    sized(width, x.checked_add(y), Refusal::Size)
}

pub fn subtract(width: u64, x: i64, y: i64) -> Answer {
    check(width, [x, y])?;
    sized(width, x.checked_sub(y), Refusal::Domain)
}

pub fn multiply(width: u64, x: i64, y: i64) -> Answer {
    check(width, [x, y])?;
    sized(width, x.checked_mul(y), Refusal::Size)
}

pub fn add_carry(width: u64, x: i64, y: i64, z: i64) -> Answer {
    check(width, [x, y, z])?;
    split(width, i128::from(x) + i128::from(y) + i128::from(z))
}

pub fn subtract_carry(width: u64, x: i64, y: i64, z: i64) -> Answer {
    check(width, [x, y, z])?;
    split(width, i128::from(x) - i128::from(y) - i128::from(z))
}

pub fn multiply_carry(width: u64, x: i64, y: i64, z: i64) -> Answer {
    check(width, [x, y, z])?;
    split(width, i128::from(x) * i128::from(y) + i128::from(z))
}

/// The result, where it is a fixnum; None stands for one that is no i64.
pub fn sized(width: u64, result: Option<i64>, refusal: Refusal) -> Answer {
    match result {
        Some(result) if is_fixnum(width, result) => Ok((result, 0)),
        _ => Err(refusal),
    }
}

/// The low bits of s, as many as the width, as a signed number; and what is left, above them.
fn split(width: u64, s: i128) -> Answer {
    let low = low_bits(width, s as i64);
    Ok((low, ((s - i128::from(low)) >> width) as i64))
}
