//! The second implementation of the calls on stored rules, for a program in C: refusal, place, offset and value are written
//! to four numbers. The value of a reading is the width.

use quebralua_reference::reference::rule::reader::read;
use quebralua_reference::rule_call::{RuleAnswer, RuleCall};
use std::slice::from_raw_parts;

#[no_mangle]
pub unsafe extern "C" fn reference_rule_read(rule: *const u8, n: usize, answer: &mut [i64; 4]) {
    *answer = answered(&RuleCall::Read(from_raw_parts(rule, n)));
}

#[no_mangle]
pub unsafe extern "C" fn reference_rule_evaluate(
    rule: *const u8,
    n: usize,
    inputs: *const i64,
    ninputs: usize,
    answer: &mut [i64; 4],
) {
    *answer = answered(&RuleCall::Evaluate(from_raw_parts(rule, n), from_raw_parts(inputs, ninputs)));
}

fn answered(call: &RuleCall) -> [i64; 4] {
    let RuleAnswer { refusal, place, offset, value } = call.answer(&read(call.rule()));
    [refusal as i64, place as i64, offset as i64, value]
}
