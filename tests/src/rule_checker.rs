//! Makes calls on stored rules, and compares each answer with the second implementation.

use crate::checker::Checker;
use crate::library::call_rule;
use crate::report::difference;
use crate::whole_words;
use quebralua_reference::reference::rule::reader::read;
use quebralua_reference::rule_call::{RuleAnswer, RuleCall};

impl Checker {
    pub fn rule(&mut self, call: &RuleCall) -> RuleAnswer {
        let reading = read(call.rule());
        let expected = call.answer(&reading);
        let got = self.ask_rule(call);
        if got != expected {
            let reading = reading.map_or_else(|breach| format!("{breach:?}"), |rule| format!("{rule:?}"));
            difference(&call.as_c(), &format!("{expected:?}\n          {reading}"), &format!("{got:?}"));
        }
        if let Ok(rule) = &reading {
            whole_words::check(rule.width(), got.refusal, || call.as_c());
        }
        self.tally.rule(call, &reading, expected);
        got
    }

    /// The library's answer alone.
    pub fn ask_rule(&mut self, call: &RuleCall) -> RuleAnswer {
        self.begin(|| call.as_c());
        if self.has_guards() {
            call_rule(call)
        } else {
            allocated(call)
        }
    }

    /// Both calls on the same bytes.
    pub fn read_and_evaluate(&mut self, rule: &[u8], inputs: &[i64]) {
        self.rule(&RuleCall::Read(rule));
        self.rule(&RuleCall::Evaluate(rule, inputs));
    }

    /// Both calls on a rule that is one of the edges.
    pub fn edge_rule(&mut self, rule: &[u8], inputs: &[i64]) {
        if self.is_chosen() {
            self.read_and_evaluate(rule, inputs);
        }
    }
}

/// Makes the call on a rule and inputs that have allocations of their own.
fn allocated(call: &RuleCall) -> RuleAnswer {
    let rule: Box<[u8]> = Box::from(call.rule());
    match call {
        RuleCall::Read(_) => call_rule(&RuleCall::Read(&rule)),
        RuleCall::Evaluate(_, inputs) => {
            let inputs: Box<[i64]> = Box::from(*inputs);
            call_rule(&RuleCall::Evaluate(&rule, &inputs))
        }
    }
}
