//! Records that no opening made: each number of an open record, and each pair of them, replaced by telling ones. Every
//! call is made on them. Most are unopened; those that are not must work like any other.

use super::fold_settings::{replaced, telling, NUMBERS};
use crate::checker::Checker;
use quebralua_reference::fixnum_arguments::{beyond, greatest, least, nearest_accepted};
use quebralua_reference::fold_call::FoldCall;
use quebralua_reference::reference::fold::{Fold, ZERO};
use quebralua_reference::reference::width::WIDTHS;

pub fn run(checker: &mut Checker) {
    every_call(checker, &ZERO);
    for width in WIDTHS {
        let last = width as i64 - 1;
        let inside = Fold { width, start: 3, end: 12, count: 4, accumulator: greatest(width) };
        let empty = Fold { width, start: 7, end: 7, count: 0, accumulator: -1 };
        let longest = Fold { width, start: 0, end: last, count: last, accumulator: least(width) };
        for record in [inside, empty, longest] {
            every_call(checker, &record);
            one_replaced(checker, &record);
            two_replaced(checker, &record);
        }
    }
}

fn one_replaced(checker: &mut Checker, record: &Fold) {
    for place in 0..NUMBERS {
        for number in telling(record, place) {
            every_call(checker, &replaced(record, place, number));
        }
    }
}

/// One call on each, chosen at random.
fn two_replaced(checker: &mut Checker, record: &Fold) {
    for first in 0..NUMBERS {
        for number in telling(record, first) {
            let forged = replaced(record, first, number);
            for second in first + 1..NUMBERS {
                for number in telling(record, second) {
                    let forged = replaced(&forged, second, number);
                    let call = checker.random.choose(&calls(record));
                    checker.edge_fold(&forged, &call);
                }
            }
        }
    }
}

fn every_call(checker: &mut Checker, record: &Fold) {
    for call in calls(record) {
        checker.edge_fold(record, &call);
    }
}

/// Calls of every kind, with openings by the record's own numbers, by legal ones and by refused ones.
fn calls(record: &Fold) -> [FoldCall<'static>; 12] {
    let width = nearest_accepted(record.width);
    let [below, above, ..] = beyond(width);
    [
        FoldCall::Chunk(&[]),
        FoldCall::Chunk(&[0]),
        FoldCall::Chunk(&[0x80]),
        FoldCall::Chunk(&[1, 0x7F, 0xFF]),
        FoldCall::Read,
        FoldCall::Join { piece: 0, n: 0 },
        FoldCall::Join { piece: -1, n: 1 },
        FoldCall::Join { piece: above, n: 7 },
        FoldCall::Join { piece: below, n: u64::MAX },
        FoldCall::Open(*record),
        FoldCall::Open(Fold { width, start: 2, end: 5, count: 1, accumulator: 6 }),
        FoldCall::Open(Fold { width, start: 2, end: 5, count: 4, accumulator: 6 }),
    ]
}
