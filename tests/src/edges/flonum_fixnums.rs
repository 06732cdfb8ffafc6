//! fixnum->flonum at every width: fixnums at its limits and beyond them; numbers halfway between two flonums and next
//! to these; and bad widths, which are refused before a number that is no fixnum.

use crate::checker::Checker;
use quebralua_reference::fixnum_arguments::{numbers, refused_widths};
use quebralua_reference::flonum_call::FlonumCall;
use quebralua_reference::reference::width::WIDTHS;

pub fn run(checker: &mut Checker) {
    let limits = limits();
    let ties = ties();
    for width in WIDTHS.chain(refused_widths()) {
        for &n in limits.iter().chain(&ties) {
            checker.edge_flonum(&FlonumCall::fixnum_to_flonum(width, n));
        }
    }
}

/// The numbers around the limits of every width, each of them given at every width.
fn limits() -> Vec<i64> {
    let around = WIDTHS.flat_map(numbers).flat_map(|n| [n.wrapping_sub(1), n, n.wrapping_add(1)]);
    let mut limits: Vec<i64> = around.chain([i64::MIN, i64::MIN + 1, i64::MAX, i64::MAX - 1]).collect();
    limits.sort_unstable();
    limits.dedup();
    limits
}

/// From each power of two 2^53 to 2^62 up, and below 2^63: with last bits that are even and odd, the numbers halfway to
/// the next flonum, one below and one above. The greatest of all round up to the next power.
fn ties() -> Vec<i64> {
    let mut ties = Vec::new();
    for exponent in 53..63 {
        let (power, step) = (1i64 << exponent, 1i64 << (exponent - 52));
        let last = power - step + power;
        let first = [0, 1, 2, 3, 4, 5, 1 << 20, (1 << 20) + 1, (1 << 51) + 6, (1 << 51) + 7].map(|i| power + i * step);
        for flonum in first.into_iter().chain([last - 2 * step, last - step, last]) {
            ties.extend(around(flonum, step));
        }
    }
    ties.iter().flat_map(|&n| [n, -n]).collect()
}

/// The flonum and what lies between it and the next: its neighbours, and the numbers around the half and the quarters.
fn around(flonum: i64, step: i64) -> impl Iterator<Item = i64> {
    let parts = [0, step / 4, step / 2, step / 2 + step / 4].into_iter();
    parts.flat_map(move |part| [-1, 0, 1].map(|near| flonum + part + near))
}
