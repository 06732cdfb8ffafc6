//! The limb calls with fields: starts, ends and counts around every limit.

use super::limb_operands::{long, refused, short, some_long, some_short};
use super::limb_positions::{counts, few_counts, few_positions, positions};
use crate::checker::Checker;
use quebralua_reference::call::LimbCall;
use quebralua_reference::operation::Operation::*;

pub fn run(checker: &mut Checker) {
    let short = short(&mut checker.random);
    for x in &short {
        fields(x, positions, |start, end| take_and_reverse(checker, x, start, end));
    }
    for x in short.iter().step_by(2) {
        fields(x, few_positions, |start, end| rotate(checker, x, start, end, counts(start, end)));
    }
    let mut others = long(&mut checker.random);
    others.extend(refused());
    for x in &others {
        fields(x, few_positions, |start, end| take_and_reverse(checker, x, start, end));
    }
    for x in others.iter().step_by(3) {
        fields(x, few_positions, |start, end| rotate(checker, x, start, end, few_counts(start, end)));
    }
    every_field_of_two_limbs(checker);
    copy_fields(checker);
}

/// Every start with every end, in order or not, of the positions for an operand.
fn fields(x: &[u32], positions: fn(usize) -> Vec<i64>, mut each: impl FnMut(i64, i64)) {
    for start in positions(x.len()) {
        for end in positions(x.len()) {
            each(start, end);
        }
    }
}

fn take_and_reverse(checker: &mut Checker, x: &[u32], start: i64, end: i64) {
    checker.edge(&LimbCall::new(BitField, &[x], &[start, end]));
    checker.edge(&LimbCall::new(Reverse, &[x], &[start, end]));
}

fn rotate(checker: &mut Checker, x: &[u32], start: i64, end: i64, counts: Vec<i64>) {
    for count in counts {
        checker.edge(&LimbCall::new(Rotate, &[x], &[start, end, count]));
    }
}

/// Every field with an end to 66, of a random number of two limbs, and every seventh rotation of it.
fn every_field_of_two_limbs(checker: &mut Checker) {
    for start in 0..=66 {
        for end in start..=66 {
            let x = [checker.random.next_u32(), checker.random.next_u32()];
            take_and_reverse(checker, &x, start, end);
            let begin = checker.random.between(0, 6);
            rotate(checker, &x, start, end, (begin..=end - start).step_by(7).collect());
        }
    }
}

/// Some targets with some sources, refused ones among both.
fn copy_fields(checker: &mut Checker) {
    let mut operands = some_short(&mut checker.random, 3);
    operands.extend(some_long(&mut checker.random, 12));
    operands.extend(refused().into_iter().take(2));
    for x in &operands {
        for y in &operands {
            fields(x, few_positions, |start, end| {
                checker.edge(&LimbCall::new(CopyBitField, &[x, y], &[start, end]));
            });
        }
    }
}
