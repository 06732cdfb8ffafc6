//! The operations on arguments that are known to be fixnums.

use crate::binding::Refusal;
use crate::fixnum_calls::CALLS;
use crate::plain_fixnum::arithmetic::sized;
use crate::plain_fixnum::field::{check_field, field, reversed, rotated};
use crate::plain_fixnum::shift::shifted_left;
use crate::plain_fixnum::{is_position, require};

/// Operations that no rule has that is timed, of one argument count each, go through functions that check again.
pub fn apply(width: u64, code: u8, count: usize, places: &[i64; 4]) -> Result<i64, Refusal> {
    let (arguments, &[x, y, z, last]) = (&places[..count], places);
    match code {
        1 => all_pairs(arguments, |x, y| x == y),
        2 => all_pairs(arguments, |x, y| x > y),
        3 => all_pairs(arguments, |x, y| x < y),
        4 => all_pairs(arguments, |x, y| x >= y),
        5 => all_pairs(arguments, |x, y| x <= y),
        11 => Ok(arguments.iter().fold(i64::MIN, |x, &y| x.max(y))),
        12 => Ok(arguments.iter().fold(i64::MAX, |x, &y| x.min(y))),
        13 => sized(width, x.checked_add(y), Refusal::Size).map(first),
        15 if count == 1 => sized(width, x.checked_neg(), Refusal::Domain).map(first),
        15 => sized(width, x.checked_sub(y), Refusal::Domain).map(first),
        25 => Ok(!x),
        26 => Ok(arguments.iter().fold(-1, |x, y| x & y)),
        27 => Ok(arguments.iter().fold(0, |x, y| x | y)),
        28 => Ok(arguments.iter().fold(0, |x, y| x ^ y)),
        29 => Ok(x & y | !x & z),
        35 => check_field(width, y, z).map(|()| field(x, y, z)),
        38 => check_distance(width, y).and_then(|()| shifted_left(width, x, y)).map(first),
        39 => check_distance(width, y).map(|()| x >> y),
        40 => check_turn(width, y, z, last).map(|()| rotated(x, y, z, last)),
        41 => check_field(width, y, z).map(|()| reversed(x, y, z)),
        _ => (CALLS[usize::from(code) - 1].plain)(width, places).map(first),
    }
}

fn first((first, _): (i64, i64)) -> i64 {
    first
}

fn all_pairs(arguments: &[i64], holds: impl Fn(i64, i64) -> bool) -> Result<i64, Refusal> {
    Ok(i64::from(arguments.windows(2).all(|pair| holds(pair[0], pair[1]))))
}

fn check_distance(width: u64, distance: i64) -> Result<(), Refusal> {
    require(is_position(width, distance), Refusal::Domain)
}

fn check_turn(width: u64, start: i64, end: i64, count: i64) -> Result<(), Refusal> {
    check_field(width, start, end)?;
    require(0 <= count && count <= end - start, Refusal::Domain)
}
