//! Every width from 0 to 127 and some greater ones; and at each that is accepted, constants and inputs at the limits of
//! every width and of every number of groups.

use super::rule_parts::{call, rule, SMALL};
use crate::checker::Checker;
use quebralua_reference::fixnum_arguments::{beyond, greatest, least, refused_widths};
use quebralua_reference::reference::rule::leb128::SIGNED_GROUPS;
use quebralua_reference::reference::rule::{Form, INPUTS};
use quebralua_reference::reference::width::WIDTHS;

pub fn run(checker: &mut Checker) {
    let greater = refused_widths().into_iter().filter(|width| (128..1 << 63).contains(width));
    for width in (0..=127).chain(greater) {
        let sum = call(13, vec![Form::Input(3), Form::Constant(-2)]);
        for form in [Form::Constant(0), Form::Input(15), sum] {
            checker.edge_rule(&rule(width, form), &SMALL);
        }
    }
    let limits = limits();
    for stored_width in std::iter::once(0).chain(WIDTHS) {
        limits.iter().for_each(|&value| limit(checker, stored_width, value));
    }
}

/// As a constant, as an input, and as the last argument of a call that takes any fixnum.
fn limit(checker: &mut Checker, stored_width: u64, value: i64) {
    let index = checker.random.below(INPUTS as u64) as usize;
    let mut inputs = [0; INPUTS];
    inputs[index] = value;
    let last = call(11, vec![Form::Constant(0), Form::Input(index), Form::Constant(value)]);
    for form in [Form::Constant(value), Form::Input(index), last] {
        checker.edge_rule(&rule(stored_width, form), &inputs);
    }
}

fn limits() -> Vec<i64> {
    let widths = WIDTHS.flat_map(|width| [least(width), greatest(width)].into_iter().chain(beyond(width)));
    let groups = (1..SIGNED_GROUPS).flat_map(|groups| {
        let limit = 1i64 << (7 * groups - 1);
        [limit - 1, limit, limit + 1, -limit - 1, -limit, 1 - limit]
    });
    let mut limits: Vec<i64> = widths.chain(groups).chain([0, 1, -1]).collect();
    limits.sort_unstable();
    limits.dedup();
    limits
}
