//! What C callers may do with pointers: a rule at every alignment, between bytes that would make another rule of it, and
//! neither the rule nor the inputs are changed.

use super::rule_parts::SMALL;
use crate::checker::Checker;
use crate::report::difference;
use quebralua_reference::random_arguments::rule::{accepted, any_inputs};
use quebralua_reference::reference::rule::INPUTS;
use quebralua_reference::rule_call::RuleCall;
use std::hint::black_box;

pub fn run(checker: &mut Checker) {
    // No byte, which the binding passes as NULL.
    checker.read_and_evaluate(&[], &SMALL);
    checker.rule(&RuleCall::Evaluate(&[], &[]));
    checker.rule(&RuleCall::Evaluate(&[24, 1, 3], &[]));
    for _ in 0..500 {
        if checker.is_chosen() {
            surrounded(checker);
        }
    }
}

/// The same rule at eight places of one buffer and the same inputs at two of another, with each kind of byte around.
fn surrounded(checker: &mut Checker) {
    let made = accepted(&mut checker.random);
    let byte = checker.random.choose(&[0, 1, 2, 24, 26, 0x7F, 0x80, 0xFF]);
    let numbers = any_inputs(&mut checker.random);
    for place in 8..16 {
        let mut bytes = vec![byte; made.bytes.len() + 32];
        bytes[place..place + made.bytes.len()].copy_from_slice(&made.bytes);
        let mut inputs = numbers.repeat(2);
        let from = 1 + place % 2;
        inputs[from..from + INPUTS].copy_from_slice(&made.inputs);
        let before = (bytes.clone(), inputs.clone());
        let rule = &bytes[place..place + made.bytes.len()];
        checker.read_and_evaluate(rule, &inputs[from..from + INPUTS]);
        checker.read_and_evaluate(&rule[..rule.len() - 1], &inputs[from..from + INPUTS]);
        let after = black_box((bytes, inputs));
        if after != before {
            difference("a rule's evaluation", &format!("nothing changed: {before:?}"), &format!("{after:?}"));
        }
    }
}
