//! Each code at each width, with every count and with arguments around every limit.

use crate::checker::Checker;
use crate::combinations::Combinations;
use quebralua_reference::call::FixnumCall;
use quebralua_reference::fixnum_arguments::{least, nearest_accepted, refused_widths};
use quebralua_reference::reference::fixnum::codes_and_counts;
use quebralua_reference::reference::width::WIDTHS;

pub fn run(checker: &mut Checker) {
    for width in WIDTHS {
        for (code, count) in codes_and_counts() {
            let combinations = Combinations::new(width, code, count);
            (0..combinations.amount()).for_each(|number| checker.edge_fixnum(combinations.call(number)));
        }
    }
    counts_and_order(checker);
}

/// Bad widths, codes, counts and arguments together: the first that offends is answered.
fn counts_and_order(checker: &mut Checker) {
    let mut codes: Vec<u64> = (0..=43).collect();
    codes.extend([64, 255, 257, (1 << 32) + 13, u64::MAX]);
    let counts = [0, 1, 2, 3, 4, 5, 6, 1 << 32, (1 << 32) + 2, u64::MAX];
    for width in WIDTHS.chain(refused_widths()) {
        let least = least(nearest_accepted(width));
        let mut arguments = vec![[0; 4], [1; 4], [i64::MAX; 4], [least; 4], [least, -1, 0, 0], [0, 0, 0, 1 << 62]];
        arguments.extend([1, 2, 3].map(|rotation| [5, 1, 3, rotation]));
        for &code in &codes {
            for &count in &counts {
                for &args in &arguments {
                    checker.edge_fixnum(FixnumCall { width, code, count, args });
                }
            }
        }
    }
}
