//! The fixnum calls on i128 and the limb calls on vectors of bits agree where both are defined.

use super::{any_size, call, small};
use crate::fixnum_arguments::random_width;
use crate::operation::Operation::{self, *};
use crate::random::Random;
use crate::reference::conversion::{fixnum_to_limbs, limbs_to_fixnum};
use crate::refusal::OPERAND;

/// A code and the limb operation of the same name.
const PAIRS: [(u64, Operation); 17] = [
    (25, Not),
    (26, And),
    (27, Ior),
    (28, Xor),
    (29, If),
    (30, BitCount),
    (31, Length),
    (32, FirstBitSet),
    (33, BitSet),
    (34, CopyBit),
    (35, BitField),
    (36, CopyBitField),
    (37, Shift),
    (38, ShiftLeft),
    (39, ShiftRight),
    (40, Rotate),
    (41, Reverse),
];

/// Positions of copy-bit stay below the sign, which limbs do not have at a fixed place.
fn numbers(random: &mut Random, operation: Operation, width: i64) -> Vec<i64> {
    let start = random.between(0, width - 2);
    let end = random.between(start, width - 1);
    match operation {
        CopyBit => vec![start, random.between(0, 1)],
        Shift => vec![random.between(1 - width, width - 1)],
        ShiftLeft | ShiftRight | BitSet => vec![start],
        BitField | CopyBitField | Reverse => vec![start, end],
        Rotate => vec![start, end, random.between(0, end - start)],
        _ => vec![],
    }
}

#[test]
fn fixnum_and_limbs() {
    let mut random = Random::new(3);
    for round in 0..60_000 {
        let (code, operation) = PAIRS[round % PAIRS.len()];
        let width = random_width(&mut random);
        let size = width - 1;
        let operands: Vec<i128> = (0..operation.operands()).map(|_| any_size(&mut random, size)).collect();
        let numbers = numbers(&mut random, operation, width as i64);
        let mut args = vec![operands[0] as i64];
        args.extend(&numbers);
        args.extend(operands[1..].iter().map(|&n| n as i64));
        let (refusal, first, _) = call(width, code, &args);
        let limbs = small(operation, &operands, &numbers);
        if refusal == 0 {
            assert_eq!(limbs, Ok(i128::from(first)), "{operation:?} {args:?}");
        } else {
            let beyond = limbs.expect("a small shift is done");
            assert!(beyond < -(1 << size) || beyond >= 1 << size, "{operation:?} {args:?}");
        }
    }
}

#[test]
fn conversion_both_ways() {
    let mut random = Random::new(4);
    for _ in 0..20_000 {
        let width = random_width(&mut random);
        let n = any_size(&mut random, width - 1) as i64;
        let mut limbs = fixnum_to_limbs(width, n).expect("a fixnum");
        assert_eq!(limbs_to_fixnum(width, &limbs), Ok(n));
        limbs.push(if n < 0 { u32::MAX } else { 0 });
        assert_eq!(limbs_to_fixnum(width, &limbs), Err(OPERAND));
    }
}
