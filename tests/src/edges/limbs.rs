//! The limb calls without fields: bit by bit, values, one bit, shifts.

use super::limb_operands::{long, one_limb, refused, short, some_long, some_short};
use super::limb_positions::{distances, positions, NEW_BITS};
use crate::checker::Checker;
use quebralua_reference::call::LimbCall;
use quebralua_reference::operation::Operation::*;
use quebralua_reference::reference::integer::Integer;

pub fn run(checker: &mut Checker) {
    let mut operands = short(&mut checker.random);
    operands.extend(long(&mut checker.random));
    operands.extend(refused());
    for x in &operands {
        one_operand(checker, x);
        one_bit(checker, x);
        shifts(checker, x);
    }
    for length in (1..=40).chain(1017..=1024) {
        counts(checker, length);
    }
    pairs(checker);
    triples(checker);
}

fn one_operand(checker: &mut Checker, x: &[u32]) {
    for operation in [Not, BitCount, Length, FirstBitSet] {
        checker.edge_all_shapes(&LimbCall::new(operation, &[x], &[]));
    }
}

/// Zeros or ones, and one limb that differs, at each index next to an end of the operand: it is counted once. The first
/// of the three is padded unless that limb is among the last; the others have both signs.
fn counts(checker: &mut Checker, length: usize) {
    for fill in [0, u32::MAX] {
        for i in (0..length).filter(|&i| i < 20 || length - i <= 20) {
            let mut x = vec![fill; length];
            x[i] ^= 0x4000_0801;
            checker.edge(&LimbCall::new(BitCount, &[&x], &[]));
            for top in [0x8000_0000, 0xA000_0000] {
                x[length - 1] ^= top;
                checker.edge(&LimbCall::new(BitCount, &[&x], &[]));
            }
        }
    }
}

fn one_bit(checker: &mut Checker, x: &[u32]) {
    for position in positions(x.len()) {
        checker.edge(&LimbCall::new(BitSet, &[x], &[position]));
        for bit in NEW_BITS {
            checker.edge(&LimbCall::new(CopyBit, &[x], &[position, bit]));
        }
    }
}

fn shifts(checker: &mut Checker, x: &[u32]) {
    let bits = if x.is_empty() { 0 } else { Integer::from_limbs(x).length() as i64 };
    for distance in distances(bits) {
        for operation in [Shift, ShiftLeft, ShiftRight] {
            checker.edge(&LimbCall::new(operation, &[x], &[distance]));
        }
    }
}

/// Every pair of short operands, and every pair with a long or a refused one, of some.
fn pairs(checker: &mut Checker) {
    let short = short(&mut checker.random);
    for x in &short {
        for y in &short {
            for operation in [And, Ior, Xor] {
                checker.edge_all_shapes(&LimbCall::new(operation, &[x, y], &[]));
            }
        }
    }
    let mut others = some_long(&mut checker.random, 2);
    others.extend(refused());
    let mut all = one_limb();
    all.extend(others.iter().cloned());
    for x in &all {
        for y in &others {
            for operation in [And, Ior, Xor] {
                checker.edge(&LimbCall::new(operation, &[x, y], &[]));
                checker.edge(&LimbCall::new(operation, &[y, x], &[]));
            }
        }
    }
}

/// Every triple of some operands of every length.
fn triples(checker: &mut Checker) {
    let mut operands = some_short(&mut checker.random, 2);
    operands.extend(some_long(&mut checker.random, 8));
    operands.extend(refused().into_iter().take(2));
    for x in &operands {
        for y in &operands {
            for z in &operands {
                checker.edge(&LimbCall::new(If, &[x, y, z], &[]));
            }
        }
    }
}
