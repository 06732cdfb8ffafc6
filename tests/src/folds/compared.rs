//! Random calls on one record, each of them compared with the second implementation.

use crate::checker::Checker;
use quebralua_reference::fixnum_arguments::random_width;
use quebralua_reference::fold_call::FoldCall;
use quebralua_reference::random_arguments::fold::{
    accepted, bytes, cutting, join_length, piece, record, settings_or_width,
};

/// How many calls are made on one record.
const CALLS: u64 = 12;

/// Calls of every kind, one after the other, on a record that is a fold or not.
pub fn any_calls(checker: &mut Checker, width: u64) {
    let mut record = record(&mut checker.random, width);
    for _ in 0..CALLS {
        let random = &mut checker.random;
        match random.below(16) {
            0..=3 => {
                let width = if random.one_in(4) { random_width(random) } else { width };
                let settings = settings_or_width(random, width);
                checker.fold(&mut record, &FoldCall::Open(settings));
            }
            4..=9 => {
                let bytes = bytes(random);
                checker.fold(&mut record, &FoldCall::Chunk(&bytes));
            }
            10..=12 => {
                checker.fold(&mut record, &FoldCall::Read);
            }
            _ => {
                let (piece, n) = (piece(random, record.width), join_length(random));
                checker.fold(&mut record, &FoldCall::Join { piece, n });
            }
        }
    }
}

/// An opening over any record, and the pieces of one string.
pub fn cutting_of_one_string(checker: &mut Checker, width: u64) {
    let mut record = record(&mut checker.random, width);
    let settings = accepted(&mut checker.random, width);
    checker.fold(&mut record, &FoldCall::Open(settings));
    let bytes = bytes(&mut checker.random);
    for chunk in cutting(&mut checker.random, &bytes) {
        checker.fold(&mut record, &FoldCall::Chunk(chunk));
        if checker.random.one_in(4) {
            checker.fold(&mut record, &FoldCall::Read);
        }
    }
}
