//! Makes flonum calls, and compares the bits of each answer with the second implementation.

use crate::checker::Checker;
use crate::library::call_flonum;
use crate::report::difference;
use crate::whole_words;
use quebralua_reference::flonum_call::{FlonumAnswer, FlonumCall, FlonumOperation};

impl Checker {
    pub fn flonum(&mut self, call: &FlonumCall) -> FlonumAnswer {
        let expected = call.answer();
        let got = self.ask_flonum(call);
        if got != expected {
            difference(&call.as_c(), &format!("{expected:x?}"), &format!("{got:x?}"));
        }
        self.tally.flonum(call, expected.refusal());
        got
    }

    /// The library's answer alone.
    pub fn ask_flonum(&mut self, call: &FlonumCall) -> FlonumAnswer {
        self.begin(|| call.as_c());
        let got = call_flonum(call);
        whole_words::check(call.width, got.refusal(), || call.as_c());
        got
    }

    /// Every call of one flonum, on this one.
    pub fn every_unary(&mut self, x: u64) {
        for operation in FlonumOperation::UNARY {
            self.flonum(&FlonumCall::unary(operation, x));
        }
    }

    /// A call that is one of the edges.
    pub fn edge_flonum(&mut self, call: &FlonumCall) {
        if self.is_chosen() {
            self.flonum(call);
        }
    }

    /// Every call of one flonum, on one of the edges.
    pub fn edge_unary(&mut self, x: u64) {
        if self.is_chosen() {
            self.every_unary(x);
        }
    }
}
