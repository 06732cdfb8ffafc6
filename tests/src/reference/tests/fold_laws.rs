//! What holds of every fold, asked of the second implementation alone: it equals a closed form on vectors of bits, which
//! uses no fixnum call, and cuttings, joins, xor, differing bytes and greater widths do what the papers say.

use crate::fixnum_arguments::random_width;
use crate::random::Random;
use crate::random_arguments::fold::{accepted, bytes, cutting};
use crate::reference::fold::Fold;
use crate::reference::integer::Integer;
use crate::reference::limb_results::{both, rotate};
use crate::reference::width::WIDTHS;

const ROUNDS: u64 = 1_000;

/// Settings that open, and bytes.
fn rounds(seed: u64, mut each: impl FnMut(&mut Random, Fold, &[u8])) {
    let mut random = Random::new(seed);
    for _ in 0..ROUNDS {
        let width = random_width(&mut random);
        let settings = accepted(&mut random, width);
        let bytes = bytes(&mut random);
        each(&mut random, settings, &bytes);
    }
}

fn folded(mut record: Fold, bytes: &[u8]) -> i64 {
    record.chunk(bytes).expect("an open record");
    record.accumulator
}

/// The accumulator and each byte, rotated once by count times the number of bytes after it, and all of them xored.
fn closed_form(settings: Fold, bytes: &[u8]) -> i64 {
    let (start, end, count) = (settings.start as usize, settings.end as usize, settings.count as usize);
    let rotated = |x: i64, later: usize| rotate(&Integer::from_i128(i128::from(x)), start, end, count * later);
    let mut result = rotated(settings.accumulator, bytes.len());
    for (later, &byte) in bytes.iter().rev().enumerate() {
        result = both(&result, &rotated(i64::from(byte), later), |a, b| a != b);
    }
    result.to_i128().expect("a fixnum") as i64
}

#[test]
fn the_closed_form() {
    rounds(11, |_, settings, bytes| assert_eq!(folded(settings, bytes), closed_form(settings, bytes), "{settings:?}"));
}

#[test]
fn every_cutting() {
    rounds(12, |random, settings, bytes| {
        let mut record = settings;
        for piece in cutting(random, bytes) {
            assert_eq!(record.chunk(piece), Ok(()));
        }
        assert_eq!(record.accumulator, folded(settings, bytes), "{settings:?}");
    });
}

#[test]
fn every_split_that_is_joined() {
    rounds(13, |random, settings, bytes| {
        let mut record = settings;
        for piece in cutting(random, bytes) {
            let alone = folded(Fold { accumulator: 0, ..settings }, piece);
            assert_eq!(record.join(alone, piece.len() as u64), Ok(()));
        }
        assert_eq!(record.accumulator, folded(settings, bytes), "{settings:?}");
    });
}

#[test]
fn xor_of_two_strings() {
    rounds(14, |random, settings, x| {
        let y: Vec<u8> = x.iter().map(|_| random.next_u32() as u8).collect();
        let xored: Vec<u8> = x.iter().zip(&y).map(|(a, b)| a ^ b).collect();
        let from_0 = Fold { accumulator: 0, ..settings };
        assert_eq!(folded(from_0, &xored), folded(from_0, x) ^ folded(from_0, &y), "{settings:?}");
    });
}

#[test]
fn one_differing_byte() {
    rounds(15, |random, settings, bytes| {
        if bytes.is_empty() {
            return;
        }
        let mut other = bytes.to_vec();
        other[random.below(bytes.len() as u64) as usize] ^= 1 + random.below(255) as u8;
        assert_ne!(folded(settings, &other), folded(settings, bytes), "{settings:?}");
    });
}

#[test]
fn greater_widths() {
    rounds(16, |_, settings, bytes| {
        for width in WIDTHS.filter(|&width| width > settings.width).step_by(7) {
            assert_eq!(folded(Fold { width, ..settings }, bytes), folded(settings, bytes), "{settings:?}");
        }
    });
}
