//! Rules of 4,096 bytes and about as many, and longer ones, which offend there whatever they hold.

use super::rule_parts::{call, rule, SMALL};
use crate::checker::Checker;
use quebralua_reference::random::Random;
use quebralua_reference::reference::rule::{Form, MOST_BYTES};

const LENGTHS: [usize; 9] = [4_000, 4_093, 4_094, 4_095, 4_096, 4_097, 4_098, 5_000, 65_536];

/// How many rules there are of each length, at each of some widths. The first is always compared.
const ROUNDS: usize = 20;

pub fn run(checker: &mut Checker) {
    for length in LENGTHS {
        for width in [0, 24, 64] {
            for round in 0..ROUNDS {
                if round == 0 || checker.is_chosen() {
                    let form = form(&mut checker.random, length - 1, width);
                    checker.read_and_evaluate(&rule(width, form), &SMALL);
                }
            }
        }
        for byte in [0, 1, 2, 24, 0x7F, 0x80, 0xFF] {
            checker.edge_rule(&vec![byte; length], &SMALL);
            checker.edge_rule(&[vec![24, 0, 5], vec![byte; length - 3]].concat(), &SMALL);
        }
    }
    // The last byte of the longest rule and of one that is too long, replaced.
    for length in [MOST_BYTES, MOST_BYTES + 1] {
        let mut longest = rule(64, form(&mut checker.random, length - 1, 64));
        for byte in 0..=u8::MAX {
            longest[length - 1] = byte;
            checker.edge_rule(&longest, &SMALL);
        }
    }
}

/// A form of exactly that many bytes, at least 2, that is done at width 64. At others its constants are small.
fn form(random: &mut Random, length: usize, width: u64) -> Form {
    match length {
        2 if random.one_in(2) => Form::Input(random.below(8) as usize),
        2..=5 => Form::Constant(constant(random, length - 1)),
        6..=11 if width == 64 => Form::Constant(constant(random, length - 1)),
        _ => {
            // Equal parts, so that the form is not too deep; the first takes what is over.
            let rest = length - 3;
            let parts = if rest >= 8 { 4 } else { 1 };
            let args = (0..parts).map(|i| rest / parts + if i == 0 { rest % parts } else { 0 });
            let args = args.map(|length| form(random, length, width)).collect();
            call(random.choose(&[26, 27, 28]), args)
        }
    }
}

/// A constant of exactly that many groups.
fn constant(random: &mut Random, groups: usize) -> i64 {
    let least = if groups == 1 { 0 } else { 1 << (7 * groups - 8) };
    let limit = 1u64 << (7 * groups - 1).min(63);
    let value = (least + random.below(limit - least)) as i64;
    if random.one_in(2) {
        value
    } else {
        !value
    }
}
