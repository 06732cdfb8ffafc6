//! The place of a refusal, at every width: each set of arguments that are no fixnums, counted or not; each combination of
//! starts, ends, counts and new bits inside and outside their domains; and results that are no fixnums.

use crate::checker::Checker;
use quebralua_reference::call::FixnumCall;
use quebralua_reference::fixnum_arguments::{beyond, greatest, least, random_fixnum};
use quebralua_reference::reference::fixnum::{argument_counts, codes_and_counts};
use quebralua_reference::reference::width::WIDTHS;

pub fn run(checker: &mut Checker) {
    for width in WIDTHS {
        for (code, count) in codes_and_counts() {
            not_fixnums(checker, width, code, count);
        }
        for code in (16..=21).chain(33..=41) {
            domains(checker, width, code);
        }
        results(checker, width);
    }
}

/// Each set of the four arguments is replaced by numbers beyond each limit. The others are legal for every code, or
/// outside a domain, which comes after. At width 64 the numbers at the limits stand there, and are never refused 4.
fn not_fixnums(checker: &mut Checker, width: u64, code: u64, count: u64) {
    let (least, greatest) = (least(width), greatest(width));
    let beyond = beyond(width);
    for others in [[5, 1, 1, 0], [5, 0, 0, -1], [5, least, 2, greatest], [5, 2, 1, 1], [5, 1, 2, 2]] {
        for turn in 0..beyond.len() {
            for set in 0..16 {
                let replaced = |i: usize| (set >> i) & 1 == 1;
                let args = std::array::from_fn(|i| if replaced(i) { beyond[(i + turn) % 4] } else { others[i] });
                checker.edge_fixnum(FixnumCall { width, code, count, args });
            }
        }
    }
}

/// Thirds lie around the second argument, and fourths around the size of the field, beside the limits of a domain.
fn domains(checker: &mut Checker, width: u64, code: u64) {
    let (w, least, greatest) = (width as i64, least(width), greatest(width));
    let count = *argument_counts(code).end();
    for second in [least, -w, 1 - w, -1, 0, 1, w / 2, w - 1, w, greatest] {
        for third in [least, -1, 0, 1, 2, second.wrapping_sub(1), second, second.wrapping_add(1), w - 1, w, greatest] {
            let f = third.wrapping_sub(second);
            for fourth in [least, -1, 0, 1, f.wrapping_sub(1), f, f.wrapping_add(1), w, greatest] {
                let args = [random_fixnum(&mut checker.random, width), second, third, fourth];
                checker.edge_fixnum(FixnumCall { width, code, count, args });
            }
        }
    }
}

/// The least result beyond a limit, and the last before it: refusal 5 of fx- and 6 of the others are about no argument.
fn results(checker: &mut Checker, width: u64) {
    let (last, least, greatest) = (width as i64 - 1, least(width), greatest(width));
    let sums = [(13, [greatest, 1]), (13, [greatest, 0]), (13, [least, -1]), (13, [least, 0])];
    let differences = [(15, [greatest, -1]), (15, [greatest, 0]), (15, [least, 1]), (15, [least, 0])];
    let products = [(14, [least, -1]), (14, [least, 1]), (14, [greatest, 2]), (14, [greatest, -1])];
    let quotients = [16, 18, 19, 21].map(|code| (code, [least, -1]));
    let shifts = [(37, [1, last]), (37, [1, last - 1]), (38, [1, last]), (38, [-1, last])];
    for (code, [x, y]) in [sums, differences, products, quotients, shifts].concat() {
        for uncounted in [0, i64::MIN] {
            checker.edge_fixnum(FixnumCall { width, code, count: 2, args: [x, y, uncounted, uncounted] });
        }
    }
    for x in [least, least + 1, greatest] {
        checker.edge_fixnum(FixnumCall { width, code: 15, count: 1, args: [x, i64::MIN, 0, i64::MAX] });
    }
}
