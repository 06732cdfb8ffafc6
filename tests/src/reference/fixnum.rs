//! The fixnum calls: the table of argument counts, the domains, and the order and places of the refusals.

use super::fixnum_results::exact;
use super::width::{is_fixnum, is_width};
use crate::refusal::{CODE, COUNT, DOMAIN, DONE, NOT_FIXNUM, SIZE, WIDTH};
use std::ops::RangeInclusive;

/// The answer of a fixnum call: refusal number, both results, and the place. The place is the number of the argument,
/// from 1, that refusal 4 or 5 is about, and otherwise 0.
#[derive(Clone, Copy, Debug, PartialEq, Eq)]
pub struct Answer {
    pub refusal: u64,
    pub first: i64,
    pub second: i64,
    pub place: u64,
}

fn refused(refusal: u64, place: u64) -> Answer {
    Answer { refusal, first: 0, second: 0, place }
}

/// The refusals are tested in their order, and for 4 and 5 the counted arguments from left to right.
pub fn fixnum(width: u64, code: u64, args: [i64; 4], count: u64) -> Answer {
    if !is_width(width) {
        return refused(WIDTH, 0);
    }
    if !(1..=41).contains(&code) {
        return refused(CODE, 0);
    }
    if !argument_counts(code).contains(&count) {
        return refused(COUNT, 0);
    }
    let args = args.map(i128::from);
    if let Some(place) = (1..=count).find(|&place| !is_fixnum(width, args[place as usize - 1])) {
        return refused(NOT_FIXNUM, place);
    }
    if let Some(place) = (1..=count).find(|&place| !in_domain(code, width, args, place)) {
        return refused(DOMAIN, place);
    }
    let (first, second) = exact(code, width as u32, &args[..count as usize]);
    if !is_fixnum(width, first) {
        return refused(outgrown(code), 0);
    }
    assert!(is_fixnum(width, second), "code {code}: the second result is always a fixnum");
    Answer { refusal: DONE, first: first as i64, second: second as i64, place: 0 }
}

/// How many arguments the code takes.
pub fn argument_counts(code: u64) -> RangeInclusive<u64> {
    match code {
        1..=5 => 2..=4,
        6..=10 => 1..=1,
        11 | 12 => 1..=4,
        13 | 14 => 2..=2,
        15 => 1..=2,
        16..=21 => 2..=2,
        22..=24 => 3..=3,
        25 => 1..=1,
        26..=28 => 0..=4,
        29 => 3..=3,
        30..=32 => 1..=1,
        33 => 2..=2,
        34 | 35 => 3..=3,
        36 => 4..=4,
        37..=39 => 2..=2,
        40 => 4..=4,
        41 => 3..=3,
        _ => unreachable!("no code {code}"),
    }
}

/// Every code with every number of arguments that it takes.
pub fn codes_and_counts() -> impl Iterator<Item = (u64, u64)> {
    (1..=41).flat_map(|code| argument_counts(code).map(move |count| (code, count)))
}

/// Whether the argument in that place is in its domain, where those before it are in theirs.
fn in_domain(code: u64, width: u64, args: [i128; 4], place: u64) -> bool {
    let [_, start, end, _] = args;
    let x = args[place as usize - 1];
    let last = i128::from(width) - 1;
    let is_position = (0..=last).contains(&x);
    match (code, place) {
        (16..=21, 2) => x != 0,
        (33..=36 | 40 | 41, 2) => is_position,
        (34, 3) => x == 0 || x == 1,
        (35 | 36 | 40 | 41, 3) => is_position && start <= x,
        (37, 2) => (-last..=last).contains(&x),
        (38 | 39, 2) => (0..=last).contains(&x),
        (40, 4) => 0 <= x && x <= end - start,
        _ => true,
    }
}

/// The refusal where the exact result is not a fixnum: fx- is an assertion, the others are a restriction.
fn outgrown(code: u64) -> u64 {
    match code {
        15 => DOMAIN,
        13 | 14 | 16 | 18 | 19 | 21 | 37 | 38 => SIZE,
        _ => unreachable!("code {code} always answers a fixnum"),
    }
}
