//! Forms nested as deep as they may be, and deeper, through each argument of each call.

use super::rule_parts::{call, constants, rule, LEGAL, SMALL};
use crate::checker::Checker;
use quebralua_reference::reference::rule::{rule_calls, Form, MOST_DEPTH};

/// Three bytes a depth: 1,365 deep is as deep as 4,096 bytes can be.
const DEPTHS: [usize; 12] = [1, 2, 3, 16, 30, 31, 32, 33, 34, 64, 1_365, 4_000];

pub fn run(checker: &mut Checker) {
    for (code, count) in rule_calls() {
        for place in 0..count as usize {
            for depth in [31, 32, 33] {
                let innermost = innermost(checker);
                checker.edge_rule(&rule(24, nested(depth, code, count as usize, place, innermost)), &SMALL);
            }
        }
    }
    for depth in DEPTHS {
        for inside in [Form::Constant(5), Form::Input(3), call(28, vec![])] {
            checker.read_and_evaluate(&rule(0, nested(depth, 25, 1, 0, inside)), &SMALL);
        }
    }
    for depth in [32, 33, 34] {
        cut_off(checker, &rule(64, nested(depth, 25, 1, 0, call(26, vec![]))));
        cut_off(checker, &rule(64, nested(depth, 13, 2, 1, Form::Constant(i64::MAX))));
    }
    two_branches(checker);
}

/// A form with nothing inside it.
fn innermost(checker: &mut Checker) -> Form {
    match checker.random.below(3) {
        0 => Form::Constant(1),
        1 => Form::Input(1),
        _ => call(27, vec![]),
    }
}

/// A form `depth` deep: each call has the next as its argument in that place, and legal constants in the others.
fn nested(depth: usize, code: u64, count: usize, place: usize, innermost: Form) -> Form {
    (1..depth).fold(innermost, |inside, _| {
        let mut args = constants(&LEGAL[..count]);
        args[place] = inside;
        call(code, args)
    })
}

/// The rule cut off after each byte, and there followed by each kind of byte: what is too deep offends before them.
fn cut_off(checker: &mut Checker, rule: &[u8]) {
    for length in 0..=rule.len() {
        checker.edge_rule(&rule[..length], &SMALL);
        for byte in [0, 1, 2, 3, 0x7F, 0x80, 0xFF] {
            checker.edge_rule(&[&rule[..length], &[byte]].concat(), &SMALL);
        }
    }
}

/// Depth is counted anew in each argument: two branches of every pair of depths around the limit.
fn two_branches(checker: &mut Checker) {
    let depths = MOST_DEPTH - 3..=MOST_DEPTH + 1;
    for first in depths.clone() {
        for second in depths.clone() {
            let branches = [first, second].map(|depth| nested(depth, 25, 1, 0, Form::Input(4)));
            checker.edge_rule(&rule(40, call(28, branches.to_vec())), &SMALL);
        }
    }
}
