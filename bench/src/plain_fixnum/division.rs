//! R6RS's two divisions: with a remainder from 0 on, and to the nearest quotient. The signs choose
//! without branches, which div_euclid and rem_euclid have: of random numbers a processor cannot foretell them, and such a
//! division can take twice as long.

use super::{check, require, Answer};
use crate::binding::Refusal;

pub fn div(width: u64, x: i64, y: i64) -> Answer {
    check_quotient(width, x, y)?;
    Ok((euclidean(x, y).0, 0))
}

pub fn modulo(width: u64, x: i64, y: i64) -> Answer {
    check_division(width, x, y)?;
    Ok((euclidean(x, y).1, 0))
}

pub fn div_and_mod(width: u64, x: i64, y: i64) -> Answer {
    check_quotient(width, x, y)?;
    Ok(euclidean(x, y))
}

pub fn div0(width: u64, x: i64, y: i64) -> Answer {
    check_quotient(width, x, y)?;
    Ok((nearest(x, y).0, 0))
}

pub fn mod0(width: u64, x: i64, y: i64) -> Answer {
    check_division(width, x, y)?;
    Ok((nearest(x, y).1, 0))
}

pub fn div0_and_mod0(width: u64, x: i64, y: i64) -> Answer {
    check_quotient(width, x, y)?;
    Ok(nearest(x, y))
}

fn check_division(width: u64, x: i64, y: i64) -> Result<(), Refusal> {
    check(width, [x, y])?;
    require(y != 0, Refusal::Domain)
}

/// Only the least fixnum by -1 has a quotient that is no fixnum.
fn check_quotient(width: u64, x: i64, y: i64) -> Result<(), Refusal> {
    check_division(width, x, y)?;
    require(y != -1 || x != -1 << (width - 1), Refusal::Size)
}

/// The remainder m has 0 <= m < abs y.
fn euclidean(x: i64, y: i64) -> (i64, i64) {
    divided(x, y, |remainder| -i64::from(remainder < 0))
}

/// The remainder m has -(abs y) <= 2 m < abs y.
fn nearest(x: i64, y: i64) -> (i64, i64) {
    let size = y.unsigned_abs();
    let (least, greatest) = (-((size / 2) as i64), ((size - 1) / 2) as i64);
    divided(x, y, |remainder| i64::from(remainder > greatest) - i64::from(remainder < least))
}

/// Rounds to 0, then makes the remainder less by abs y, as many times as are asked for. The quotient of the least i64 by
/// -1 wraps around.
fn divided(x: i64, y: i64, times: impl Fn(i64) -> i64) -> (i64, i64) {
    let (quotient, remainder) = (x.wrapping_div(y), x.wrapping_rem(y));
    let step = times(remainder) * y.signum();
    (quotient + step, remainder.wrapping_sub(step.wrapping_mul(y)))
}
