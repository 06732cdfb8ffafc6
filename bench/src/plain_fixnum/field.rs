//! Single bits, and fields: the bits from start up to, but not at, end.

use super::{check, is_position, low_bits, require, yes_or_no, Answer};
use crate::binding::Refusal;

pub fn bit_set(width: u64, x: i64, position: i64) -> Answer {
    check(width, [x, position])?;
    require(is_position(width, position), Refusal::Domain)?;
    yes_or_no(x >> position & 1 == 1)
}

/// The bit at the last position is the sign.
pub fn copy_bit(width: u64, x: i64, position: i64, bit: i64) -> Answer {
    check(width, [x, position, bit])?;
    require(is_position(width, position) && (0..=1).contains(&bit), Refusal::Domain)?;
    Ok((low_bits(width, x & !(1 << position) | bit << position), 0))
}

pub fn bit_field(width: u64, x: i64, start: i64, end: i64) -> Answer {
    check(width, [x, start, end])?;
    check_field(width, start, end)?;
    Ok((field(x, start, end), 0))
}

pub fn copy_bit_field(width: u64, x: i64, start: i64, end: i64, source: i64) -> Answer {
    check(width, [x, start, end, source])?;
    check_field(width, start, end)?;
    Ok((replace(x, start, end, source), 0))
}

pub fn rotate(width: u64, x: i64, start: i64, end: i64, count: i64) -> Answer {
    check_rotation(width, x, start, end, count)?;
    Ok((rotated(x, start, end, count), 0))
}

pub fn reverse(width: u64, x: i64, start: i64, end: i64) -> Answer {
    check(width, [x, start, end])?;
    check_field(width, start, end)?;
    Ok((reversed(x, start, end), 0))
}

pub fn check_rotation(width: u64, x: i64, start: i64, end: i64, count: i64) -> Result<(), Refusal> {
    check(width, [x, start, end, count])?;
    check_field(width, start, end)?;
    require(0 <= count && count <= end - start, Refusal::Domain)
}

pub fn rotated(x: i64, start: i64, end: i64, count: i64) -> i64 {
    let bits = field(x, start, end);
    replace(x, start, end, bits << count | bits >> (end - start - count))
}

pub fn reversed(x: i64, start: i64, end: i64) -> i64 {
    let mirrored = (x.reverse_bits() as u64 >> 1) >> (63 - end);
    replace(x, start, end, mirrored as i64)
}

pub fn check_field(width: u64, start: i64, end: i64) -> Result<(), Refusal> {
    require(0 <= start && start <= end && end < width as i64, Refusal::Domain)
}

/// So many ones, from bit 0 on; at most 63.
pub fn ones(size: i64) -> i64 {
    !(-1 << size)
}

pub fn field(x: i64, start: i64, end: i64) -> i64 {
    x >> start & ones(end - start)
}

fn replace(x: i64, start: i64, end: i64, bits: i64) -> i64 {
    let mask = ones(end - start);
    x & !(mask << start) | (bits & mask) << start
}
