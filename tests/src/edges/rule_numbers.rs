//! Numbers at the limits of their groups, in each place where a rule has one: shortest and padded, of every number of
//! groups, cut off after each group, at the rule's end and before other bytes.

use super::rule_parts::{in_groups, SMALL};
use crate::checker::Checker;

/// A place for a number: the bytes before it, and several that may come after it.
struct Place {
    before: &'static [u8],
    after: &'static [&'static [u8]],
}

/// Each kind of number, at the start of a rule and inside a call.
const PLACES: [Place; 10] = [
    // The width.
    Place { before: &[], after: &[&[0, 5]] },
    // Tags: what follows suits one of them each.
    Place { before: &[24], after: &[&[5], &[26, 0], &[13, 2, 0, 1, 0, 2]] },
    Place { before: &[64, 2, 13, 2, 1, 7], after: &[&[5], &[26, 0], &[13, 2, 0, 1, 0, 2]] },
    // Constants.
    Place { before: &[64, 0], after: &[&[], &[0]] },
    Place { before: &[24, 2, 28, 2, 0], after: &[&[0, 5]] },
    // Inputs.
    Place { before: &[24, 1], after: &[&[], &[1]] },
    Place { before: &[0, 2, 13, 2, 1], after: &[&[1, 15]] },
    // Codes.
    Place { before: &[24, 2], after: &[&[1, 0, 5], &[0], &[2, 0, 5, 0, 6]] },
    // Counts.
    Place {
        before: &[24, 2, 27],
        after: &[&[], &[0, 5], &[0, 5, 0, 6], &[0, 5, 0, 6, 0, 7], &[1, 5, 1, 6, 1, 7, 1, 8]],
    },
    Place { before: &[24, 2, 25, 1, 2, 15], after: &[&[0, 5], &[0, 5, 0, 6]] },
];

/// More groups than any number may have.
const MOST_GROUPS: usize = 12;

/// Groups that say that another follows: all bits 0 or 1, and the highest bit other than the rest.
const CONTINUED: [u8; 5] = [0x80, 0xFF, 0xC0, 0xBF, 0x81];

/// Numbers that some place takes, and next to them.
const VALUES: [i128; 20] = [0, 1, 2, 3, 4, 5, 13, 15, 16, 18, 23, 24, 26, 30, 41, 42, 64, 65, 127, 128];

pub fn run(checker: &mut Checker) {
    for place in &PLACES {
        continued(checker, place);
        last_groups(checker, place);
        values(checker, place);
    }
}

/// Groups of which each says that another follows: none, one, two and so on; and after them a last one. All of these are
/// compared, where only some of the others are.
fn continued(checker: &mut Checker, place: &Place) {
    for group in CONTINUED {
        for groups in 0..=MOST_GROUPS {
            in_place(checker, place, &vec![group; groups]);
            for last in [0, 1] {
                in_place(checker, place, &[vec![group; groups], vec![last]].concat());
            }
        }
    }
}

/// Each last group after every number of others, of which the last is of each kind.
fn last_groups(checker: &mut Checker, place: &Place) {
    for groups in 0..MOST_GROUPS {
        for (first, second) in CONTINUED.into_iter().zip([0x80, 0xFF, 0xFF, 0x80, 0xC0]) {
            for last in 0..=0x7F {
                let mut number = vec![first; groups];
                number.push(last);
                if checker.is_chosen() {
                    in_place(checker, place, &number);
                }
                if groups > 0 && checker.is_chosen() {
                    number[groups - 1] = second;
                    in_place(checker, place, &number);
                }
            }
        }
    }
}

/// Small numbers, alone and with a bit beyond the low ones, negative and not, in every number of groups.
fn values(checker: &mut Checker, place: &Place) {
    for value in VALUES {
        for high in [0, 7, 8, 32, 56, 61, 62, 63, 64, 70].map(|bit| if bit == 0 { 0 } else { 1 << bit }) {
            for groups in 1..=MOST_GROUPS {
                if checker.is_chosen() {
                    in_place(checker, place, &in_groups(value + high, groups));
                    in_place(checker, place, &in_groups(-value - high, groups));
                }
            }
        }
    }
}

/// The number at the rule's end, and before each of what may follow, as it is and with a byte too many.
fn in_place(checker: &mut Checker, place: &Place, number: &[u8]) {
    let mut rule = [place.before, number].concat();
    let length = rule.len();
    checker.read_and_evaluate(&rule, &SMALL);
    for after in place.after {
        rule.truncate(length);
        rule.extend_from_slice(after);
        rule.push(0x80);
        checker.read_and_evaluate(&rule, &SMALL);
        checker.read_and_evaluate(&rule[..rule.len() - 1], &SMALL);
    }
}
