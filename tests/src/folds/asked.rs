//! Folds that the library makes alone. All these calls have to be done, and a reading is the record's accumulator.

use crate::checker::Checker;
use crate::report::difference;
use quebralua_reference::fold_call::{FoldAnswer, FoldCall};
use quebralua_reference::reference::fold::{Fold, ZERO};
use quebralua_reference::refusal::DONE;

/// A record opened with these settings.
pub fn open(checker: &mut Checker, settings: &Fold) -> Fold {
    let mut record = ZERO;
    call(checker, &mut record, &FoldCall::Open(*settings));
    record
}

pub fn chunk(checker: &mut Checker, record: &mut Fold, bytes: &[u8]) {
    call(checker, record, &FoldCall::Chunk(bytes));
}

pub fn join(checker: &mut Checker, record: &mut Fold, piece: i64, n: u64) {
    call(checker, record, &FoldCall::Join { piece, n });
}

pub fn read(checker: &mut Checker, record: &Fold) -> i64 {
    let mut after = *record;
    let value = call(checker, &mut after, &FoldCall::Read).value;
    if (after, value) != (*record, record.accumulator) {
        let got = format!("{value}, and the record {after:?}");
        difference(&FoldCall::Read.as_c(record), "the accumulator, and the same record", &got);
    }
    value
}

/// What the pieces of a string come to, one chunk after the other.
pub fn identifier(checker: &mut Checker, settings: &Fold, pieces: &[&[u8]]) -> i64 {
    let mut record = open(checker, settings);
    for piece in pieces {
        chunk(checker, &mut record, piece);
    }
    read(checker, &record)
}

fn call(checker: &mut Checker, record: &mut Fold, call: &FoldCall) -> FoldAnswer {
    let before = *record;
    let answer = checker.ask_fold(record, call);
    if answer.refusal != DONE {
        difference(&call.as_c(&before), "done", &format!("{answer:?}"));
    }
    answer
}
