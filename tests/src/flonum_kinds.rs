//! Kinds of flonums, and ways in which a fixnum is rounded: what the compared calls have to show.

use crate::flonum_values::{FIRST_WHOLE, GREATEST, HALF, ONE};
use crate::reference::flonum::conversion::nearest;
use crate::reference::flonum::{magnitude, significand_and_places, HIDDEN, INFINITY, NAN};
use std::cmp::Ordering::{Equal, Greater, Less};

pub const KINDS: [&str; 14] = [
    "zero",
    "subnormal",
    "below 1/2",
    "1/2",
    "between 1/2 and 1",
    "whole below 2^52",
    "halfway above an even number",
    "halfway above an odd number",
    "another fraction",
    "2^52 or more",
    "the greatest finite",
    "infinity",
    "signalling NaN",
    "quiet NaN",
];

/// The kind of a flonum, by its place in `KINDS`.
pub fn kind(x: u64) -> usize {
    match magnitude(x) {
        0 => 0,
        1..HIDDEN => 1,
        HIDDEN..HALF => 2,
        HALF => 3,
        HALF..ONE => 4,
        ONE..FIRST_WHOLE => fraction_kind(x),
        FIRST_WHOLE..GREATEST => 9,
        GREATEST => 10,
        INFINITY => 11,
        INFINITY..NAN => 12,
        NAN.. => 13,
    }
}

/// The kind of a flonum from 1 to 2^52.
fn fraction_kind(x: u64) -> usize {
    let (significand, places) = significand_and_places(x);
    let (rest, half) = (significand % (1 << places), 1 << (places - 1));
    match (rest, significand >> places) {
        (0, _) => 5,
        (rest, whole) if rest == half => 6 + (whole % 2) as usize,
        _ => 8,
    }
}

pub const WAYS: [&str; 6] = ["exact", "below a tie", "tie, down", "tie, up", "above a tie", "up to a power of two"];

/// How a fixnum is rounded, by its place in `WAYS`.
pub fn way(n: i64) -> usize {
    let magnitude = n.unsigned_abs();
    let dropped = (64 - magnitude.leading_zeros()).saturating_sub(53);
    if magnitude % (1 << dropped) == 0 {
        return 0;
    }
    if nearest(magnitude) % HIDDEN == 0 && magnitude >> dropped != HIDDEN {
        return 5;
    }
    let is_odd = (magnitude >> dropped) % 2 == 1;
    match (magnitude % (1 << dropped)).cmp(&(1 << (dropped - 1))) {
        Less => 1,
        Equal if is_odd => 3,
        Equal => 2,
        Greater => 4,
    }
}
