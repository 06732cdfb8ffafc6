//! The answers that each fixnum code can give.

use crate::reference::fixnum::argument_counts;
use crate::refusal::{COUNT, DOMAIN, DONE, NOT_FIXNUM, SIZE, WIDTH};

/// Each refusal number, 0 for done, with each place that it can carry.
pub fn fixnum_answers(code: u64) -> Vec<(u64, u64)> {
    let not_fixnum = (1..=*argument_counts(code).end()).map(|place| (NOT_FIXNUM, place));
    let domain = domain_places(code).iter().map(|&place| (DOMAIN, place));
    let size = matches!(code, 13 | 14 | 16 | 18 | 19 | 21 | 37 | 38).then_some((SIZE, 0));
    [(DONE, 0), (WIDTH, 0), (COUNT, 0)].into_iter().chain(not_fixnum).chain(domain).chain(size).collect()
}

/// The arguments that have a domain; 0 for the result of fx-.
fn domain_places(code: u64) -> &'static [u64] {
    match code {
        15 => &[0],
        16..=21 | 33 | 37..=39 => &[2],
        34..=36 | 41 => &[2, 3],
        40 => &[2, 3, 4],
        _ => &[],
    }
}
