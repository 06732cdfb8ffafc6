//! Every string of up to three bytes.

use super::rule_parts::SMALL;
use crate::checker::Checker;

/// The longest of these strings.
const LONGEST: usize = 3;

/// Stand in memory behind the string: where they are read too, many of the strings become rules.
const BEHIND: [u8; 5] = [1; 5];

pub fn run(checker: &mut Checker) {
    for length in 0..=LONGEST {
        let strings = 1 << (8 * length);
        let mut number = checker.next_chosen() - 1;
        while number < strings {
            let mut bytes = u64::to_le_bytes(number);
            bytes[length..length + BEHIND.len()].copy_from_slice(&BEHIND);
            checker.read_and_evaluate(&bytes[..length], &SMALL);
            number += checker.next_chosen();
        }
    }
}
