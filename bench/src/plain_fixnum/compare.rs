//! Comparisons, questions about one number, the larger and the smaller.

use super::{check, yes_or_no, Answer};

pub fn equal(width: u64, x: i64, y: i64) -> Answer {
    check(width, [x, y])?;
    yes_or_no(x == y)
}

pub fn greater(width: u64, x: i64, y: i64) -> Answer {
    check(width, [x, y])?;
    yes_or_no(x > y)
}

pub fn less(width: u64, x: i64, y: i64) -> Answer {
    check(width, [x, y])?;
    yes_or_no(x < y)
}

pub fn greater_or_equal(width: u64, x: i64, y: i64) -> Answer {
    check(width, [x, y])?;
    yes_or_no(x >= y)
}

pub fn less_or_equal(width: u64, x: i64, y: i64) -> Answer {
    check(width, [x, y])?;
    yes_or_no(x <= y)
}

pub fn zero(width: u64, x: i64) -> Answer {
    check(width, [x])?;
    yes_or_no(x == 0)
}

pub fn positive(width: u64, x: i64) -> Answer {
    check(width, [x])?;
    yes_or_no(x > 0)
}

pub fn negative(width: u64, x: i64) -> Answer {
    check(width, [x])?;
    yes_or_no(x < 0)
}

pub fn odd(width: u64, x: i64) -> Answer {
    check(width, [x])?;
    yes_or_no(x & 1 == 1)
}

pub fn even(width: u64, x: i64) -> Answer {
    check(width, [x])?;
    yes_or_no(x & 1 == 0)
}

pub fn max(width: u64, x: i64, y: i64) -> Answer {
    check(width, [x, y])?;
    Ok((x.max(y), 0))
}

pub fn min(width: u64, x: i64, y: i64) -> Answer {
    check(width, [x, y])?;
    Ok((x.min(y), 0))
}
