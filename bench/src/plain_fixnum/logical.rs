//! Operations on all bits, and counts of bits.

use super::{check, Answer};

pub fn not(width: u64, x: i64) -> Answer {
    check(width, [x])?;
    Ok((!x, 0))
}

pub fn and(width: u64, x: i64, y: i64) -> Answer {
    check(width, [x, y])?;
    Ok((x & y, 0))
}

pub fn ior(width: u64, x: i64, y: i64) -> Answer {
    check(width, [x, y])?;
    Ok((x | y, 0))
}

pub fn xor(width: u64, x: i64, y: i64) -> Answer {
    check(width, [x, y])?;
    Ok((x ^ y, 0))
}

pub fn if_(width: u64, x: i64, y: i64, z: i64) -> Answer {
    check(width, [x, y, z])?;
    Ok((x & y | !x & z, 0))
}

pub fn bit_count(width: u64, x: i64) -> Answer {
    check(width, [x])?;
    let ones = i64::from(magnitude(x).count_ones());
    Ok((if x < 0 { !ones } else { ones }, 0))
}

pub fn length(width: u64, x: i64) -> Answer {
    check(width, [x])?;
    Ok((64 - i64::from(magnitude(x).leading_zeros()), 0))
}

pub fn first_bit_set(width: u64, x: i64) -> Answer {
    check(width, [x])?;
    Ok((if x == 0 { -1 } else { i64::from(x.trailing_zeros()) }, 0))
}

/// x, or not x where x is negative.
fn magnitude(x: i64) -> i64 {
    x ^ (x >> 63)
}
