//! Every field of every width, empty ones too: some bytes and a join by a count of it, often at its limits.

use crate::checker::Checker;
use quebralua_reference::fixnum_arguments::random_fixnum;
use quebralua_reference::fold_call::FoldCall;
use quebralua_reference::reference::fold::Fold;
use quebralua_reference::reference::width::WIDTHS;

pub fn run(checker: &mut Checker) {
    for width in WIDTHS {
        for start in 0..width as i64 {
            for end in start..width as i64 {
                if checker.is_chosen() {
                    field(checker, width, start, end);
                }
            }
        }
    }
}

fn field(checker: &mut Checker, width: u64, start: i64, end: i64) {
    let f = end - start;
    let any = checker.random.between(0, f);
    let count = checker.random.choose(&[0, f.min(1), (f - 1).max(0), f, any, any, any]);
    let accumulator = random_fixnum(&mut checker.random, width);
    let mut record = Fold { width, start, end, count, accumulator };
    let bytes = checker.random.next_u64().to_le_bytes();
    let piece = random_fixnum(&mut checker.random, width);
    let n = checker.random.below(2 * width);
    checker.fold(&mut record, &FoldCall::Chunk(&bytes[..2]));
    checker.fold(&mut record, &FoldCall::Join { piece, n });
}
