//! The shifts.

use super::{check, is_position, require, Answer};
use crate::binding::Refusal;

pub fn shift(width: u64, x: i64, distance: i64) -> Answer {
    check(width, [x, distance])?;
    require(distance.unsigned_abs() < width, Refusal::Domain)?;
    if distance < 0 {
        Ok((x >> -distance, 0))
    } else {
        shifted_left(width, x, distance)
    }
}

pub fn shift_left(width: u64, x: i64, distance: i64) -> Answer {
    check(width, [x, distance])?;
    require(is_position(width, distance), Refusal::Domain)?;
    shifted_left(width, x, distance)
}

pub fn shift_right(width: u64, x: i64, distance: i64) -> Answer {
    check(width, [x, distance])?;
    require(is_position(width, distance), Refusal::Domain)?;
    Ok((x >> distance, 0))
}

/// The result is a fixnum where the bits that reach the place of the sign, or go beyond it, all equal the sign.
pub fn shifted_left(width: u64, x: i64, distance: i64) -> Answer {
    require(x >> (width - 1 - distance as u64) == x >> 63, Refusal::Size)?;
    Ok((x << distance, 0))
}
