//! The fixnum operations in plain Rust on i64, for comparison, with the checks of the library: the width, the arguments,
//! their domains and the size of the result.

pub mod arithmetic;
pub mod compare;
pub mod division;
pub mod field;
pub mod logical;
pub mod shift;

use std::ops::RangeInclusive;

use crate::binding::Refusal;

/// The widths that are allowed. At the greatest every i64 is a fixnum.
const WIDTHS: RangeInclusive<u64> = 24..=64;

/// Two results; an operation with one has 0 as second.
pub type Answer = Result<(i64, i64), Refusal>;

/// Whether the width is allowed and each argument is a fixnum.
fn check<const N: usize>(width: u64, arguments: [i64; N]) -> Result<(), Refusal> {
    if !WIDTHS.contains(&width) {
        return Err(Refusal::Width);
    }
    if !arguments.iter().all(|&x| is_fixnum(width, x)) {
        return Err(Refusal::NotFixnum);
    }
    Ok(())
}

/// Adding half of their number moves the fixnums to 0 and up. So one comparison is enough, which is quicker than two.
pub fn is_fixnum(width: u64, x: i64) -> bool {
    let half = 1 << (width - 1);
    x.wrapping_add(half) as u64 <= u64::MAX >> (64 - width)
}

/// The low bits of x, as many as the width, as a signed number.
fn low_bits(width: u64, x: i64) -> i64 {
    let unused = 64 - width;
    x << unused >> unused
}

/// The distance of a shift that goes to one side only has the same domain.
pub fn is_position(width: u64, position: i64) -> bool {
    0 <= position && position < width as i64
}

pub fn require(condition: bool, refusal: Refusal) -> Result<(), Refusal> {
    if condition {
        Ok(())
    } else {
        Err(refusal)
    }
}

fn yes_or_no(yes: bool) -> Answer {
    Ok((i64::from(yes), 0))
}
