//! A rule that is cut off after each byte, in which each byte gets other values, one is left out or comes twice, and whose
//! width is replaced by each other.

use crate::checker::Checker;
use quebralua_reference::random::Random;
use quebralua_reference::random_arguments::rule::Made;
use quebralua_reference::reference::width::WIDTHS;
use quebralua_reference::rule_call::RuleCall;

/// Up to how many bytes a rule is short: each byte of it gets every other value.
const SHORT: usize = 40;

/// How many other values each byte of a longer rule gets, and how many of its bytes.
const VALUES: usize = 16;
const PLACES: usize = 120;

pub fn run(checker: &mut Checker, made: &Made, all_changes: bool) {
    for length in 0..made.bytes.len() {
        // Behind the end the rest of the rule stands in memory.
        checker.read_and_evaluate(&made.bytes[..length], &made.inputs);
    }
    for stored_width in std::iter::once(0).chain(WIDTHS) {
        let mut bytes = made.bytes.clone();
        bytes[0] = stored_width as u8;
        checker.read_and_evaluate(&bytes, &made.inputs);
    }
    one_byte(checker, made, all_changes);
    one_byte_more_or_less(checker, made);
}

fn one_byte(checker: &mut Checker, made: &Made, all_changes: bool) {
    let is_short = made.bytes.len() <= SHORT;
    let mut bytes = made.bytes.clone();
    for place in places(&mut checker.random, bytes.len(), all_changes) {
        let byte = made.bytes[place];
        let others = if all_changes || is_short { all_others(byte) } else { some_others(&mut checker.random, byte) };
        for other in others {
            bytes[place] = other;
            checker.rule(&RuleCall::Evaluate(&bytes, &made.inputs));
            if checker.random.one_in(8) {
                checker.rule(&RuleCall::Read(&bytes));
            }
        }
        bytes[place] = byte;
    }
}

/// The places that are changed: all, or some of very many.
fn places(random: &mut Random, length: usize, all_changes: bool) -> Vec<usize> {
    if all_changes || length <= PLACES {
        (0..length).collect()
    } else {
        (0..PLACES).map(|_| random.below(length as u64) as usize).collect()
    }
}

fn all_others(byte: u8) -> Vec<u8> {
    (1..=u8::MAX).map(|change| byte ^ change).collect()
}

/// Each bit changed, the neighbours, and random ones.
fn some_others(random: &mut Random, byte: u8) -> Vec<u8> {
    let mut others: Vec<u8> = (0..8).map(|bit| byte ^ (1 << bit)).collect();
    others.extend([byte.wrapping_add(1), byte.wrapping_sub(1)]);
    others.extend((others.len()..VALUES).map(|_| random.next_u32() as u8));
    others
}

/// A byte left out, a byte twice, and a byte after the end.
fn one_byte_more_or_less(checker: &mut Checker, made: &Made) {
    let bytes = &made.bytes;
    for place in places(&mut checker.random, bytes.len(), false) {
        let less = [&bytes[..place], &bytes[place + 1..]].concat();
        checker.rule(&RuleCall::Evaluate(&less, &made.inputs));
        let more = [&bytes[..=place], &bytes[place..]].concat();
        checker.rule(&RuleCall::Evaluate(&more, &made.inputs));
    }
    for byte in [0, 1, 0x7F, 0x80, 0xFF] {
        checker.read_and_evaluate(&[&bytes[..], &[byte]].concat(), &made.inputs);
    }
}
