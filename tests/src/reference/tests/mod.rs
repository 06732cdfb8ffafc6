//! Tests of the second implementation itself, which need no library.

mod agreement;
mod carries;
mod cases;
mod exactness;
mod flonums;
mod fold_laws;
mod folds;
mod forms;
mod places;
mod programs;
mod rotations;
mod rule_numbers;
mod rules;
mod samples;
mod spellings;
mod whole_words;
mod wider;
mod widths;

use super::fixnum::{fixnum, Answer};
use super::integer::Integer;
use super::limbs;
use crate::operation::Operation;
use crate::random::Random;

/// Widths at their limits, and around half a word.
const SOME_WIDTHS: [u64; 8] = [24, 30, 31, 32, 61, 62, 63, 64];

/// The answer to a fixnum call with as many arguments as are given.
fn answer(width: u64, code: u64, args: &[i64]) -> Answer {
    let mut all = [0; 4];
    all[..args.len()].copy_from_slice(args);
    fixnum(width, code, all, args.len() as u64)
}

/// Its refusal number and both results.
fn call(width: u64, code: u64, args: &[i64]) -> (u64, i64, i64) {
    let Answer { refusal, first, second, .. } = answer(width, code, args);
    (refusal, first, second)
}

/// A limb call on small integers, whose result is small.
fn small(operation: Operation, operands: &[i128], numbers: &[i64]) -> Result<i128, u64> {
    let operands: Vec<Vec<u32>> = operands.iter().map(|&n| Integer::from_i128(n).to_limbs()).collect();
    let operands: Vec<&[u32]> = operands.iter().map(|limbs| limbs.as_slice()).collect();
    if operation.writes() {
        let result = limbs::result(operation, &operands, numbers)?;
        Ok(Integer::from_limbs(&result).to_i128().expect("a small result"))
    } else {
        limbs::value(operation, &operands, numbers).map(i128::from)
    }
}

/// A random integer of at most `bits` bits beside the sign, of any size below that.
fn any_size(random: &mut Random, bits: u64) -> i128 {
    let kept = random.below(bits + 1);
    let low = i128::from(random.next_u64()) & ((1 << kept) - 1);
    if random.one_in(2) {
        low
    } else {
        !low
    }
}
