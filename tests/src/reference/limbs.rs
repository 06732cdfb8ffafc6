//! The limb calls: operands, domains and size, in the order of their refusals. The capacity is in `output`.

use super::integer::Integer;
use super::limb_results::*;
use crate::operation::Operation::{self, *};
use crate::refusal::{DOMAIN, OPERAND, SIZE};

/// The most limbs of an integer.
pub const MOST_LIMBS: usize = 1024;
/// The greatest end of a field.
pub const GREATEST_END: i64 = 32_767;
/// The most bits, beside the sign, of an integer in limbs.
const MOST_BITS: i128 = 32 * MOST_LIMBS as i128 - 1;

/// The shortest form of the result of an operation that writes limbs, or the refusal 7, 5 or 6.
pub fn result(operation: Operation, operands: &[&[u32]], numbers: &[i64]) -> Result<Vec<u32>, u64> {
    let operands = integers(operation, operands)?;
    if !in_domain(operation, numbers) {
        return Err(DOMAIN);
    }
    let result = exact(operation, &operands, numbers)?;
    assert!(result.limb_count() <= MOST_LIMBS, "only shifts can outgrow the limit");
    Ok(result.to_limbs())
}

/// The answer of an operation that writes nothing, or the refusal 7 or 5.
pub fn value(operation: Operation, operands: &[&[u32]], numbers: &[i64]) -> Result<i64, u64> {
    let operands = integers(operation, operands)?;
    let x = &operands[0];
    if !in_domain(operation, numbers) {
        return Err(DOMAIN);
    }
    Ok(match operation {
        BitCount => bit_count(x),
        Length => x.length() as i64,
        FirstBitSet => first_bit_set(x),
        BitSet => i64::from(x.bit(numbers[0] as usize)),
        _ => unreachable!("{operation:?} writes limbs"),
    })
}

/// The operands as integers, if each has 1 to 1,024 limbs and, for every operation but trim, no more than its integer
/// needs.
pub fn integers(operation: Operation, operands: &[&[u32]]) -> Result<Vec<Integer>, u64> {
    let integer = |limbs: &&[u32]| {
        if !(1..=MOST_LIMBS).contains(&limbs.len()) {
            return Err(OPERAND);
        }
        let x = Integer::from_limbs(limbs);
        let is_shortest = x.limb_count() == limbs.len();
        if is_shortest || operation == Trim {
            Ok(x)
        } else {
            Err(OPERAND)
        }
    };
    operands.iter().map(integer).collect()
}

fn in_domain(operation: Operation, numbers: &[i64]) -> bool {
    let field = || 0 <= numbers[0] && numbers[0] <= numbers[1] && numbers[1] <= GREATEST_END;
    match operation {
        CopyBit => 0 <= numbers[0] && numbers[0] < GREATEST_END && (numbers[1] == 0 || numbers[1] == 1),
        BitField | CopyBitField | Reverse => field(),
        Rotate => field() && 0 <= numbers[2],
        ShiftLeft | ShiftRight | BitSet => 0 <= numbers[0],
        _ => true,
    }
}

fn exact(operation: Operation, operands: &[Integer], numbers: &[i64]) -> Result<Integer, u64> {
    let x = &operands[0];
    let number = |i: usize| numbers[i] as usize;
    Ok(match operation {
        Not => not(x),
        And => both(x, &operands[1], |a, b| a && b),
        Ior => both(x, &operands[1], |a, b| a || b),
        Xor => both(x, &operands[1], |a, b| a != b),
        If => if_then_else(x, &operands[1], &operands[2]),
        CopyBit => copy_bit(x, number(0), numbers[1] == 1),
        BitField => bit_field(x, number(0), number(1)),
        CopyBitField => copy_bit_field(x, number(0), number(1), &operands[1]),
        Shift | ShiftLeft => return shift(x, i128::from(numbers[0])),
        ShiftRight => return shift(x, -i128::from(numbers[0])),
        Rotate => rotate(x, number(0), number(1), number(2)),
        Reverse => reverse(x, number(0), number(1)),
        Trim => x.clone(),
        _ => unreachable!("{operation:?} writes no limbs"),
    })
}

/// The floor of x * 2^distance. A result that is too long is refused before it is made.
fn shift(x: &Integer, distance: i128) -> Result<Integer, u64> {
    if distance < 0 {
        return Ok(shift_right(x, -distance as usize));
    }
    if !x.is_zero() && x.length() as i128 + distance > MOST_BITS {
        return Err(SIZE);
    }
    Ok(shift_left(x, distance as usize))
}
