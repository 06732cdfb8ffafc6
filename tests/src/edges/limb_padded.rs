//! Padded operands, in each place of each limb call and in several places at once: they are refused whatever else is
//! wrong with the call. Beside them the shortest forms of the same integers.

use super::limb_spellings::{long, paddings, short};
use crate::checker::Checker;
use quebralua_reference::call::LimbCall;
use quebralua_reference::operation::Operation;

/// Numbers in the domains of every operation, outside them, and such that a shift is too long.
const NUMBERS: [[i64; 3]; 3] = [[0, 1, 1], [-1; 3], [i64::MAX; 3]];

pub fn run(checker: &mut Checker) {
    let others = short();
    for x in others.iter().chain(&long()) {
        let y = &others[checker.random.below(others.len() as u64) as usize];
        let paddings = paddings(x);
        for operation in Operation::ALL.into_iter().filter(|operation| !operation.takes_width()) {
            with_numbers(checker, operation, &[x, y, x]);
            with_numbers(checker, operation, &[y, x, y]);
            for padded in &paddings {
                each_place(checker, operation, padded, y);
            }
        }
    }
}

/// The padded operand in each choice of places, and the legal one in the others.
fn each_place(checker: &mut Checker, operation: Operation, padded: &[u32], legal: &[u32]) {
    for places in 1..1 << operation.operands() {
        let operands = [0, 1, 2].map(|i| if (places >> i) & 1 == 1 { padded } else { legal });
        with_numbers(checker, operation, &operands);
    }
}

/// On a buffer with room and on one that is too short.
fn with_numbers(checker: &mut Checker, operation: Operation, operands: &[&[u32]; 3]) {
    let (operands, numbers) = (&operands[..operation.operands()], operation.numbers());
    let kinds = if numbers == 0 { 1 } else { NUMBERS.len() };
    for kind in &NUMBERS[..kinds] {
        checker.edge(&LimbCall::new(operation, operands, &kind[..numbers]));
    }
}
