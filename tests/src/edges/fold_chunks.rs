//! Chunks: each byte, every length that is told apart, with empty chunks before, between and after, and long ones.

use super::fold_settings::accepted;
use crate::checker::Checker;
use crate::fold_cases::LONG;
use quebralua_reference::fixnum_arguments::{random_fixnum, random_width};
use quebralua_reference::fold_call::FoldCall;
use quebralua_reference::random::Random;
use quebralua_reference::reference::fold::{Fold, ZERO};
use quebralua_reference::reference::width::WIDTHS;

/// How many bytes come one after the other, in chunks of their own.
const LENGTHS: [usize; 7] = [1, 2, 255, 256, 257, 1024, 4096];

pub fn run(checker: &mut Checker) {
    for width in WIDTHS {
        each_byte(checker, width);
        lengths(checker, width);
    }
    let any = random_width(&mut checker.random);
    long(checker, any);
    for width in [*WIDTHS.start(), 32, 61, 63, *WIDTHS.end()] {
        if checker.is_chosen() {
            long(checker, width);
        }
    }
}

fn each_byte(checker: &mut Checker, width: u64) {
    let settings = accepted(&mut checker.random, width);
    for byte in 0..=u8::MAX {
        let record = checker.random.choose(&settings);
        checker.edge_fold(&record, &FoldCall::Chunk(&[byte]));
    }
}

/// On one record, which is read after each chunk. The longest chunk is made of every byte many times.
fn lengths(checker: &mut Checker, width: u64) {
    let settings = accepted(&mut checker.random, width);
    let mut record = checker.random.choose(&settings);
    checker.fold(&mut record, &FoldCall::Chunk(&[]));
    for length in LENGTHS {
        if !checker.is_chosen() {
            continue;
        }
        let bytes = every_byte(&mut checker.random, length);
        for call in [FoldCall::Chunk(&bytes), FoldCall::Read, FoldCall::Chunk(&[]), FoldCall::Chunk(&[])] {
            checker.fold(&mut record, &call);
        }
    }
}

/// One long chunk, between two empty ones, by a field as long as can be.
fn long(checker: &mut Checker, width: u64) {
    let end = width as i64 - 1;
    let count = checker.random.between(1, end - 1);
    let accumulator = random_fixnum(&mut checker.random, width);
    let bytes = every_byte(&mut checker.random, LONG);
    let mut record = ZERO;
    checker.fold(&mut record, &FoldCall::Open(Fold { width, start: 0, end, count, accumulator }));
    for chunk in [&[], &bytes[..], &[]] {
        checker.fold(&mut record, &FoldCall::Chunk(chunk));
        checker.fold(&mut record, &FoldCall::Read);
    }
}

/// That many bytes: all values in turn, in an order that changes from one round of them to the next.
fn every_byte(random: &mut Random, length: usize) -> Vec<u8> {
    let first = random.below(256) as usize;
    (0..length).map(|i| (first + i * (1 + 2 * (i / 256)) + i / 256) as u8).collect()
}
