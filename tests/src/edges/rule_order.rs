//! The order of evaluation: forms that are refused, each in its own way, in every two arguments of every call. The first
//! that is met is the rule's refusal, and the call itself is never made.

use super::rule_parts::{call, constants, rule, LEGAL, SMALL};
use crate::checker::Checker;
use quebralua_reference::reference::rule::{rule_calls, Form};

/// Refused at width 24: 4 for a constant and for an input, 5 with each place, 6.
fn refused_forms() -> Vec<Form> {
    vec![
        Form::Constant(1 << 23),
        Form::Input(15),
        call(15, constants(&[-1 << 23])),
        call(16, constants(&[1, 0])),
        call(33, constants(&[1, 24])),
        call(34, constants(&[1, 2, 2])),
        call(40, constants(&[1, 2, 5, 4])),
        call(13, constants(&[(1 << 23) - 1, 1])),
    ]
}

pub fn run(checker: &mut Checker) {
    let mut inputs = SMALL;
    inputs[15] = i64::MIN;
    let refused = refused_forms();
    refused.iter().for_each(|form| checker.read_and_evaluate(&rule(24, form.clone()), &inputs));
    for (code, count) in rule_calls() {
        for first in 0..count as usize {
            for second in first..count as usize {
                for (i, early) in refused.iter().enumerate() {
                    for late in &refused[i..] {
                        checker.edge_rule(&with_two(code, count as usize, (first, early), (second, late)), &inputs);
                        checker.edge_rule(&with_two(code, count as usize, (first, late), (second, early)), &inputs);
                    }
                }
            }
        }
    }
    legal_beside_refused(checker, &inputs);
}

/// A call at width 24 with these arguments in these places, counted from 0, and legal constants in the others. Where both
/// places are one, the second argument stands there.
fn with_two(code: u64, count: usize, first: (usize, &Form), second: (usize, &Form)) -> Vec<u8> {
    let mut args = constants(&LEGAL[..count]);
    for (place, form) in [first, second] {
        args[place] = form.clone();
    }
    rule(24, call(code, args))
}

/// Nothing is left out because the result is known without it: every argument is evaluated, also one that is multiplied
/// by 0 or not chosen by fxif.
fn legal_beside_refused(checker: &mut Checker, inputs: &[i64; 16]) {
    for refused in refused_forms() {
        for (code, known) in [(14, 0), (26, 0), (27, -1), (1, 5), (3, 5)] {
            checker.edge_rule(&rule(24, call(code, vec![Form::Constant(known), refused.clone()])), inputs);
        }
        let beside = vec![Form::Constant(1), Form::Constant(2), refused.clone()];
        for code in [1, 2, 29] {
            checker.edge_rule(&rule(24, call(code, beside.clone())), inputs);
        }
        let chosen = vec![Form::Constant(-1), Form::Constant(2), refused];
        checker.edge_rule(&rule(24, call(29, chosen)), inputs);
    }
}
