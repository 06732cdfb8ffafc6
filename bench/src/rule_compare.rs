//! Compares stored rules of the library and of plain Rust, also on bytes that are no rule and on refused evaluations.

use crate::binding::{rule_evaluate, rule_read, RuleRefusal, INPUTS};
use crate::plain_rule;
use crate::random::Random;
use crate::rule_draw::{rules, Rules, Shape};
use crate::timing::require;

const DRAWS: usize = 40_000;
const FORMS: [usize; 2] = [10, 100];
const MOST_CHANGES: i64 = 3;
const MOST_NESTED: i64 = 34;
const LONGEST: i64 = 4100;

/// A call of fxnot, up to its argument.
const NOT: [u8; 3] = [2, 25, 1];

/// Rules with up to three changes.
pub fn draws(random: &mut Random) {
    let drawn: Vec<Rules> = FORMS.map(|forms| rules(random, Shape::List, forms)).into();
    for _ in 0..DRAWS {
        let Rules { inputs, rules } = pick(random, &drawn);
        let (mut rule, mut inputs) = (pick(random, rules).1.clone(), *inputs);
        for _ in 0..random.between(0, MOST_CHANGES) {
            change(random, &mut rule, &mut inputs);
        }
        reading(&rule);
        evaluation(&rule, &inputs);
    }
}

pub fn reading(rule: &[u8]) {
    require(rule_read(rule).result() == plain_rule::read(rule), "reading a rule", "plain Rust");
}

/// The value, where the rule is not refused. Plain Rust gives no places.
pub fn evaluation(rule: &[u8], inputs: &[i64; INPUTS]) -> Option<i64> {
    let ours = rule_evaluate(rule, inputs).result().map_err(|refused| RuleRefusal { place: None, ..refused });
    require(ours == plain_rule::evaluate(rule, inputs), "evaluating a rule", "plain Rust");
    ours.ok()
}

fn change(random: &mut Random, rule: &mut Vec<u8>, inputs: &mut [i64; INPUTS]) {
    let at = random.between(0, rule.len() as i64) as usize;
    match random.between(0, 9) {
        0 => rule.truncate(at),
        1 => rule.insert(at, byte(random)),
        2 => nest(random, rule),
        3 => inputs[at % INPUTS] = random.next_u64() as i64,
        4 => rule.splice(..at.min(1), [random.between(0, 70) as u8]).for_each(drop),
        5 => rule.resize(random.between(LONGEST - 10, LONGEST) as usize, 0),
        6 => groups(random, rule, at),
        _ => rule.splice(at..(at + 1).min(rule.len()), [byte(random)]).for_each(drop),
    }
}

/// Puts the form into calls of fxnot, which may be more than are allowed.
fn nest(random: &mut Random, rule: &mut Vec<u8>) {
    let calls = NOT.repeat(random.between(0, MOST_NESTED) as usize);
    rule.splice(rule.len().min(1)..rule.len().min(1), calls).for_each(drop);
}

/// Puts groups that are not the last of a number there, often at the end.
fn groups(random: &mut Random, rule: &mut Vec<u8>, at: usize) {
    let group = byte(random) | 0x80;
    rule.splice(at..at, vec![group; random.between(1, 11) as usize]).for_each(drop);
    if random.between(0, 1) == 0 {
        rule.truncate(at + random.between(1, 11) as usize);
    }
}

/// Often one that means something.
fn byte(random: &mut Random) -> u8 {
    match random.between(0, 4) {
        0 => 0,
        1 => 0x7F,
        2 => random.between(0, 42) as u8,
        3 => random.between(0, 5) as u8,
        _ => random.between(0, 255) as u8,
    }
}

fn pick<'a, T>(random: &mut Random, items: &'a [T]) -> &'a T {
    &items[random.between(0, items.len() as i64 - 1) as usize]
}
