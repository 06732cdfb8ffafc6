//! Numbers of inputs that are not sixteen, which are refused before all else; and rules that name one input, beside which
//! the others may be anything.

use super::rule_parts::{call, rule, SMALL};
use crate::checker::Checker;
use quebralua_reference::fixnum_arguments::{beyond, greatest, least};
use quebralua_reference::reference::rule::{Form, INPUTS, MOST_BYTES};
use quebralua_reference::reference::width::WIDTHS;
use quebralua_reference::rule_call::RuleCall;

pub fn run(checker: &mut Checker) {
    wrong_numbers(checker);
    all_named(checker);
    for width in WIDTHS {
        for index in 0..INPUTS {
            one_named(checker, width, index);
        }
    }
}

fn wrong_numbers(checker: &mut Checker) {
    let refused = rule(24, call(16, vec![Form::Input(1), Form::Constant(0)]));
    let sum = rule(24, call(13, vec![Form::Input(0), Form::Input(1)]));
    let rules: [&[u8]; 9] =
        [&[], &[0x80], &[9], &[24, 0, 5], &[24, 0, 5, 0], &refused, &sum, &[0; MOST_BYTES], &[0; MOST_BYTES + 1]];
    for rule in rules {
        for amount in (0..=INPUTS + 2).chain([31, 32, 33, 256 + INPUTS]) {
            let inputs: Vec<i64> = SMALL.into_iter().cycle().take(amount).collect();
            checker.rule(&RuleCall::Evaluate(rule, &inputs));
        }
    }
}

/// Sixteen inputs in four calls of one.
fn all_named(checker: &mut Checker) {
    let quarter = |i: usize| call(28, (4 * i..4 * i + 4).map(Form::Input).collect());
    let all = rule(24, call(27, (0..4).map(quarter).collect()));
    checker.read_and_evaluate(&all, &SMALL);
}

/// At the limits of the width and beyond, while no other input is a fixnum, if any number is none.
fn one_named(checker: &mut Checker, width: u64, index: usize) {
    let [below, above, lowest, highest] = beyond(width);
    for value in [least(width), greatest(width), below, above] {
        let mut inputs: [i64; INPUTS] = std::array::from_fn(|i| if i % 2 == 0 { lowest } else { highest });
        inputs[index] = value;
        checker.edge_rule(&rule(width, Form::Input(index)), &inputs);
        let twice = call(26, vec![Form::Input(index), Form::Constant(-1), Form::Input(index)]);
        checker.edge_rule(&rule(width, twice), &inputs);
    }
}
