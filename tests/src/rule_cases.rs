//! What the compared calls on rules have to show beside their answers: each of these cases has to come, and each code, with
//! each number of arguments, and each input in a rule that is done.

use crate::rule_breaches::RuleBreaches;
use quebralua_reference::operation::FIXNUM_NAMES;
use quebralua_reference::reference::rule::leb128::{signed_groups, SIGNED_GROUPS};
use quebralua_reference::reference::rule::reader::Breach;
use quebralua_reference::reference::rule::{rule_calls, Form, Rule, INPUTS, MOST_BYTES, MOST_DEPTH};
use quebralua_reference::reference::width::WHOLE_WORD;
use quebralua_reference::refusal::DONE;
use quebralua_reference::rule_call::{RuleAnswer, RuleCall};
use std::fmt;

/// A case by name, and whether a rule that is accepted is one.
type Case = (&'static str, fn(&Seen) -> bool);

const CASES: [Case; 12] = [
    ("width 0", |seen| seen.rule.stored_width == 0),
    ("width 64, done", |seen| seen.rule.width() == WHOLE_WORD && seen.is_done),
    ("a constant alone", |seen| matches!(seen.rule.form, Form::Constant(_))),
    ("an input alone", |seen| matches!(seen.rule.form, Form::Input(_))),
    ("32 deep", |seen| seen.deepest == MOST_DEPTH),
    ("32 deep, done", |seen| seen.deepest == MOST_DEPTH && seen.is_done),
    ("4,096 bytes", |seen| seen.length == MOST_BYTES),
    ("4,096 bytes, done", |seen| seen.length == MOST_BYTES && seen.is_done),
    ("4,096 bytes, refused", |seen| seen.length == MOST_BYTES && !seen.is_done),
    ("a constant of ten groups", |seen| seen.has_ten_groups),
    ("a constant of ten groups, done", |seen| seen.has_ten_groups && seen.is_done),
    ("every input named", |seen| seen.inputs == (1 << INPUTS) - 1),
];

/// A rule that was accepted.
struct Seen<'a> {
    rule: &'a Rule,
    length: usize,
    is_done: bool,
    deepest: usize,
    has_ten_groups: bool,
    /// Bit i is 1 where the rule names input i.
    inputs: u32,
}

pub struct RuleCases {
    breaches: RuleBreaches,
    /// In the order of `CASES`.
    cases: [u64; CASES.len()],
    /// In done rules, by code and number of arguments.
    calls: [[u64; 5]; FIXNUM_NAMES.len() + 1],
    /// In done rules, by index.
    inputs: [u64; INPUTS],
}

impl RuleCases {
    pub fn new() -> RuleCases {
        let calls = [[0; 5]; FIXNUM_NAMES.len() + 1];
        RuleCases { breaches: RuleBreaches::new(), cases: [0; CASES.len()], calls, inputs: [0; INPUTS] }
    }

    /// Counts the cases of one call, given what the rule is read as.
    pub fn count(&mut self, call: &RuleCall, reading: &Result<Rule, Breach>, answer: RuleAnswer) {
        match reading {
            Err(breach) => self.breaches.count(breach),
            Ok(rule) => {
                let is_done = answer.refusal == DONE && matches!(call, RuleCall::Evaluate(..));
                self.accepted(rule, call.rule().len(), is_done);
            }
        }
    }

    fn accepted(&mut self, rule: &Rule, length: usize, is_done: bool) {
        let mut seen = Seen { rule, length, is_done, deepest: 0, has_ten_groups: false, inputs: 0 };
        rule.form.each(1, &mut |form, depth| {
            seen.deepest = seen.deepest.max(depth);
            match form {
                Form::Constant(n) => seen.has_ten_groups |= signed_groups(i128::from(*n)) == SIGNED_GROUPS,
                Form::Input(index) => {
                    seen.inputs |= 1 << index;
                    self.inputs[*index] += u64::from(is_done);
                }
                Form::Call { code, args } => self.calls[*code as usize][args.len()] += u64::from(is_done),
            }
        });
        for (count, (_, is)) in self.cases.iter_mut().zip(CASES) {
            *count += u64::from(is(&seen));
        }
    }

    /// Every case, call and input that did not come.
    pub fn missing(&self) -> Vec<String> {
        let cases = CASES.iter().zip(self.cases).filter(|&(_, count)| count == 0);
        let cases = cases.map(|((name, _), _)| format!("rules: none of the kind: {name}"));
        let calls = rule_calls().filter(|&(code, count)| self.calls[code as usize][count as usize] == 0);
        let calls = calls.map(|(code, count)| format!("rules: none done with code {code} of {count} arguments"));
        let inputs = (0..INPUTS).filter(|&index| self.inputs[index] == 0);
        let inputs = inputs.map(|index| format!("rules: none done with input {index}"));
        self.breaches.missing().chain(cases).chain(calls).chain(inputs).collect()
    }
}

impl fmt::Display for RuleCases {
    fn fmt(&self, f: &mut fmt::Formatter) -> fmt::Result {
        write!(f, "{}\naccepted rules", self.breaches)?;
        for ((name, _), count) in CASES.iter().zip(self.cases) {
            write!(f, "\n  {name:48}{count:>10}")?;
        }
        let calls: u64 = self.calls.iter().flatten().sum();
        write!(f, "\n  {:48}{calls:>10}", "calls in done rules")
    }
}
