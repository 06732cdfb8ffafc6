//! Random limb calls and conversions.

use crate::checker::Checker;
use quebralua_reference::call::LimbCall;
use quebralua_reference::fixnum_arguments::nearest_accepted;
use quebralua_reference::operation::Operation;
use quebralua_reference::random::Random;
use quebralua_reference::random_arguments::fixnum::width;
use quebralua_reference::random_arguments::limbs::{numbers, operand, operand_of, padding};
use quebralua_reference::reference::integer::Integer;

pub fn call(checker: &mut Checker) {
    let random = &mut checker.random;
    let operation = random.choose(&Operation::ALL);
    if operation.takes_width() {
        return conversion(checker);
    }
    let operands = [0; 3].map(|_| operand_of(random, operation));
    let operands = [&operands[0][..], &operands[1][..], &operands[2][..]];
    let numbers = numbers(random, operation, operands[0].len());
    let taken = &operands[..operation.operands()];
    checker.any(&LimbCall::new(operation, taken, &numbers[..operation.numbers()]));
}

/// Numbers of about as many bits as the width, and any operand now and then.
pub fn conversion(checker: &mut Checker) {
    let random = &mut checker.random;
    let width = width(random);
    let size = nearest_accepted(width) + random.below(2);
    let n = integer(random, size);
    if random.one_in(2) {
        return checker.any(&LimbCall::fixnum_to_limbs(width, n as i64));
    }
    let mut limbs = Integer::from_i128(n).to_limbs();
    if random.one_in(6) {
        limbs = padding(random, &limbs);
    } else if random.one_in(5) {
        limbs = operand(random);
    }
    checker.any(&LimbCall::limbs_to_fixnum(width, &limbs));
}

/// A random integer of at most `size` bits, its sign among them.
fn integer(random: &mut Random, size: u64) -> i128 {
    let any = i128::from(random.next_i64()) << 64 | i128::from(random.next_u64());
    any >> (128 - size + random.below(size))
}
