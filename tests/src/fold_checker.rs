//! Makes calls on the record of a fold, and compares each answer and the whole record with the second implementation.

use crate::binding;
use crate::checker::Checker;
use crate::library::{c_fold, call_fold, plain_fold};
use crate::report::difference;
use crate::whole_words;
use quebralua_reference::fold_call::{FoldAnswer, FoldCall};
use quebralua_reference::reference::fold::Fold;

/// Stands on either side of the record, where no call may change it.
const GUARD: binding::Fold =
    binding::Fold { width: 24, start: 0x5AFE, end: 0x5AFE, count: 0x5AFE, accumulator: 0x5AFE };

impl Checker {
    /// Makes the call on the record, which is left as the library leaves it.
    pub fn fold(&mut self, record: &mut Fold, call: &FoldCall) -> FoldAnswer {
        let before = *record;
        let mut expected_record = before;
        let expected = call.answer(&mut expected_record);
        let got = self.ask_fold(record, call);
        if (got, *record) != (expected, expected_record) {
            let [expected, got] = [(expected, expected_record), (got, *record)].map(|both| format!("{both:?}"));
            difference(&call.as_c(&before), &expected, &got);
        }
        self.tally.fold(&before, call, expected);
        got
    }

    /// The library's answer alone, and what it makes of the record.
    pub fn ask_fold(&mut self, record: &mut Fold, call: &FoldCall) -> FoldAnswer {
        let before = *record;
        self.begin(|| call.as_c(&before));
        let got = if self.has_guards() { guarded(record, call) } else { allocated(record, call) };
        whole_words::check(call.width(&before), got.refusal, || call.as_c(&before));
        got
    }

    /// A call that is one of the edges, on a copy of the record.
    pub fn edge_fold(&mut self, record: &Fold, call: &FoldCall) {
        if self.is_chosen() {
            let mut copy = *record;
            self.fold(&mut copy, call);
        }
    }
}

/// Makes the call on a record that stands between two others.
fn guarded(record: &mut Fold, call: &FoldCall) -> FoldAnswer {
    let mut records = [GUARD, c_fold(record), GUARD];
    let got = call_fold(&mut records[1], call);
    if records[0] != GUARD || records[2] != GUARD {
        difference(&call.as_c(record), "nothing changed outside the record", &format!("{records:?}"));
    }
    *record = plain_fold(&records[1]);
    got
}

/// Makes the call on a record and bytes that have allocations of their own.
fn allocated(record: &mut Fold, call: &FoldCall) -> FoldAnswer {
    let mut alone = Box::new(c_fold(record));
    let got = match call {
        FoldCall::Chunk(bytes) => {
            let copy: Box<[u8]> = Box::from(*bytes);
            call_fold(&mut alone, &FoldCall::Chunk(&copy))
        }
        _ => call_fold(&mut alone, call),
    };
    *record = plain_fold(&alone);
    got
}
