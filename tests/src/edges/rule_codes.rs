//! Every code with every number of arguments, those that are not allowed among them; and each call that is allowed, at
//! every width, with constants and with inputs as its arguments.

use super::rule_parts::{call, constants, rule, LEGAL, SMALL};
use crate::checker::Checker;
use quebralua_reference::random_arguments::fixnum::arguments;
use quebralua_reference::reference::rule::leb128::write_unsigned;
use quebralua_reference::reference::rule::writer::write_form;
use quebralua_reference::reference::rule::{rule_calls, Form, INPUTS};
use quebralua_reference::reference::width::WIDTHS;

/// Codes and counts of two groups and more, whose lowest bits are those of allowed ones.
const LARGE: [u64; 10] =
    [128, 128 + 2, 128 + 13, 128 + 26, 256 + 2, 256 + 26, (1 << 32) + 2, (1 << 32) + 26, (1 << 62) + 2, (1 << 63) - 1];

/// How many calls with random arguments there are of each code and number of arguments, at each width.
const CALLS: usize = 6;

pub fn run(checker: &mut Checker) {
    for code in (0..=127).chain(LARGE) {
        for count in (0..=5).chain([7, 127]).chain(LARGE) {
            for args in 0..=LEGAL.len() {
                checker.edge_rule(&bytes(code, count, args), &SMALL);
            }
        }
    }
    for (code, count) in rule_calls() {
        WIDTHS.for_each(|width| allowed(checker, width, code, count as usize));
    }
}

/// A call that says it has `count` arguments, and that many constants.
fn bytes(code: u64, count: u64, args: usize) -> Vec<u8> {
    let mut bytes = vec![24, 2];
    write_unsigned(code, &mut bytes);
    write_unsigned(count, &mut bytes);
    constants(&LEGAL[..args]).iter().for_each(|arg| write_form(arg, &mut bytes));
    bytes
}

/// Legal arguments, which are always compared, and random ones.
fn allowed(checker: &mut Checker, width: u64, code: u64, count: usize) {
    constants_and_inputs(checker, width, code, &LEGAL[..count]);
    for _ in 0..CALLS {
        if checker.is_chosen() {
            let list = arguments(&mut checker.random, width, code);
            constants_and_inputs(checker, width, code, &list[..count]);
        }
    }
}

/// The arguments as constants, and then as inputs.
fn constants_and_inputs(checker: &mut Checker, width: u64, code: u64, list: &[i64]) {
    checker.read_and_evaluate(&rule(width, call(code, constants(list))), &SMALL);
    let first = checker.random.below((INPUTS - list.len()) as u64) as usize;
    let mut inputs = [i64::MIN; INPUTS];
    inputs[first..first + list.len()].copy_from_slice(list);
    let args = (first..first + list.len()).map(Form::Input).collect();
    checker.read_and_evaluate(&rule(width, call(code, args)), &inputs);
}
