//! The carry operations with the low result at each of its limits, at every width: for each pair of x and y, the third
//! arguments that bring it there. At the least fixnum the exact result lies halfway between two multiples of 2^width.

use crate::checker::Checker;
use quebralua_reference::call::FixnumCall;
use quebralua_reference::fixnum_arguments::{greatest, least, numbers, random_fixnum};
use quebralua_reference::reference::width::{is_fixnum, WIDTHS};

/// Numbers around half a word, whose products have carries between the halves.
const HALVES: [i64; 8] = [1 << 31, -1 << 31, (1 << 31) - 1, 1 << 32, -1 << 32, (1 << 32) - 1, (1 << 32) + 1, -1 << 33];

pub fn run(checker: &mut Checker) {
    for width in WIDTHS {
        let fixnums = fixnums(checker, width);
        for &x in &fixnums {
            for &y in &fixnums {
                every_low(checker, width, x, y);
            }
        }
    }
}

fn fixnums(checker: &mut Checker, width: u64) -> Vec<i64> {
    let mut all = numbers(width);
    all.extend(HALVES);
    all.extend((0..4).map(|_| random_fixnum(&mut checker.random, width)));
    all.retain(|&n| is_fixnum(width, i128::from(n)));
    all.sort_unstable();
    all.dedup();
    all
}

fn every_low(checker: &mut Checker, width: u64, x: i64, y: i64) {
    let (least, greatest) = (i128::from(least(width)), i128::from(greatest(width)));
    let (a, b) = (i128::from(x), i128::from(y));
    for low in [least, least + 1, -2, -1, 0, 1, greatest - 1, greatest] {
        for (code, third) in [(22, low - (a + b)), (23, a - b - low), (24, low - a * b)] {
            let args = [x, y, around(width, third), i64::MIN];
            checker.edge_fixnum(FixnumCall { width, code, count: 3, args });
        }
    }
}

/// The fixnum that differs from n by a multiple of 2^width.
fn around(width: u64, n: i128) -> i64 {
    let unused = 128 - width;
    (n << unused >> unused) as i64
}
