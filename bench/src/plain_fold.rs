//! The running fold in plain Rust, for comparison, on the record of the library and with its checks.

use crate::binding::{Fold, Refusal};
use crate::plain_fixnum::field::{check_rotation, ones, rotated};
use crate::plain_fixnum::is_fixnum;

/// Folds the bytes into the accumulator.
pub fn chunk(fold: &mut Fold, bytes: &[u8]) -> Result<(), Refusal> {
    check_open(fold)?;
    trusting_chunk(fold, bytes)
}

/// The same on a record that is known to be open.
pub fn trusting_chunk(fold: &mut Fold, bytes: &[u8]) -> Result<(), Refusal> {
    fold.accumulator = run(fold, bytes);
    Ok(())
}

/// Rotates the accumulator as so many bytes would, and xors it with what they give from 0 on.
pub fn join(fold: &mut Fold, piece: i64, n: u64) -> Result<(), Refusal> {
    check_open(fold)?;
    if !is_fixnum(fold.width, piece) {
        return Err(Refusal::NotFixnum);
    }
    let size = (fold.end - fold.start) as u64;
    let count = if size == 0 { 0 } else { n % size * fold.count as u64 % size };
    fold.accumulator = rotated(fold.accumulator, fold.start, fold.end, count as i64) ^ piece;
    Ok(())
}

fn check_open(fold: &Fold) -> Result<(), Refusal> {
    check_rotation(fold.width, fold.accumulator, fold.start, fold.end, fold.count).map_err(|_| Refusal::Unopened)
}

/// The accumulator after the bytes. The upper bits of the field, as many as the count, come down; those below them go up.
fn run(fold: &Fold, bytes: &[u8]) -> i64 {
    let (up, down) = (fold.count, fold.end - fold.start - fold.count);
    let lower = ones(down) << fold.start;
    let upper = ones(up) << (fold.end - up);
    let outside = !(lower | upper);
    let mut x = fold.accumulator;
    for &byte in bytes {
        x = (x & outside | (x & lower) << up | (x & upper) >> down) ^ i64::from(byte);
    }
    x
}
