//! The smallest and the largest of one to four flonums.

use super::{is_nan, order, NAN};
use crate::refusal::COUNT;

/// Of the first `count` arguments: the smallest, then the largest, or the refusal number.
pub fn extremes(count: u64, args: [u64; 4]) -> Result<(u64, u64), u64> {
    if !(1..=4).contains(&count) {
        return Err(COUNT);
    }
    let counted = &args[..count as usize];
    if counted.iter().any(|&x| is_nan(x)) {
        return Ok((NAN, NAN));
    }
    let (mut smallest, mut largest) = (counted[0], counted[0]);
    for &x in &counted[1..] {
        // Equal ones, -0.0 and 0.0 among them, leave the earlier.
        if order(x) < order(smallest) {
            smallest = x;
        }
        if order(x) > order(largest) {
            largest = x;
        }
    }
    Ok((smallest, largest))
}
