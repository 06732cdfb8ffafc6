//! Trim: operands of every length with shortest forms of many lengths, and buffers for these.

use super::limb_operands::refused;
use super::limb_spellings::{long, paddings, short};
use crate::checker::Checker;
use quebralua_reference::call::LimbCall;
use quebralua_reference::operation::Operation::Trim;
use quebralua_reference::random::Random;
use quebralua_reference::spellings::padded;

pub fn run(checker: &mut Checker) {
    for x in short().iter().chain(&long()) {
        for spelling in paddings(x).iter().chain([x]) {
            all_shapes(checker, spelling);
        }
    }
    for x in refused() {
        all_shapes(checker, &x);
    }
    for length in 1..=24 {
        for needed in 1..=length {
            for x in integers(&mut checker.random, needed) {
                all_shapes(checker, &padded(&x, length));
            }
        }
    }
    long_operands(checker);
}

/// Every length to 1,024 with some shortest forms, and at 1,024 those of every length.
fn long_operands(checker: &mut Checker) {
    for length in 1..=1024 {
        let any = 1 + checker.random.below(length as u64) as usize;
        let lengths = [(1, length), (any, length), (length.max(2) - 1, length), (length, length), (length, 1024)];
        for (needed, length) in lengths {
            let integers = integers(&mut checker.random, needed);
            let x = &integers[checker.random.below(integers.len() as u64) as usize];
            checker.edge(&LimbCall::new(Trim, &[&padded(x, length)], &[]));
        }
    }
}

/// Integers of either sign that need that many limbs: for the bits of the last one, or for its sign alone.
fn integers(random: &mut Random, needed: usize) -> Vec<Vec<u32>> {
    let mut integers = Vec::new();
    for last in [1, 0x7FFF_FFFF, 0x8000_0000, 0xFFFF_FFFE] {
        integers.push(ending(random, needed, &[last]));
    }
    match needed {
        1 => integers.extend([vec![0], vec![u32::MAX]]),
        _ => integers.extend([[0x8000_0000, 0], [0x7FFF_FFFF, u32::MAX]].map(|end| ending(random, needed, &end))),
    }
    integers
}

/// Random limbs, zeros or ones, with these at the end.
fn ending(random: &mut Random, length: usize, end: &[u32]) -> Vec<u32> {
    let style = random.below(3);
    let below = |_| match style {
        0 => 0,
        1 => u32::MAX,
        _ => random.next_u32(),
    };
    let mut limbs: Vec<u32> = (0..length - end.len()).map(below).collect();
    limbs.extend(end);
    limbs
}

fn all_shapes(checker: &mut Checker, x: &[u32]) {
    checker.edge_all_shapes(&LimbCall::new(Trim, &[x], &[]));
}
