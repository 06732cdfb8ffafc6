//! Every field of every width, empty ones too, and every rotation count of it, from one below to one beyond.

use crate::checker::Checker;
use quebralua_reference::call::FixnumCall;
use quebralua_reference::fixnum_arguments::{beyond, greatest, least, random_fixnum};
use quebralua_reference::reference::width::WIDTHS;

pub fn run(checker: &mut Checker) {
    for width in WIDTHS {
        for start in 0..width as i64 {
            for end in start..width as i64 {
                field(checker, width, start, end);
            }
        }
    }
}

fn field(checker: &mut Checker, width: u64, start: i64, end: i64) {
    let any = random_fixnum(&mut checker.random, width);
    let numbers = [least(width), any, !any];
    for number in numbers {
        let mut call = |code, count, last| {
            let args = [number, start, end, last];
            checker.edge_fixnum(FixnumCall { width, code, count, args });
        };
        call(35, 3, -1);
        call(36, 4, !any);
        call(41, 3, -1);
        for rotation in rotations(width, end - start) {
            call(40, 4, rotation);
        }
    }
}

/// Every count that a field of f bits takes, the next ones on either side, and those around the limits of a fixnum.
fn rotations(width: u64, f: i64) -> impl Iterator<Item = i64> {
    (-1..=f + 1).chain([least(width), greatest(width)]).chain(beyond(width))
}
