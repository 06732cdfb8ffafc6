//! A running fold: the caller's record and its four calls. Each byte is one call of code 40 and one of code 28.

use super::fixnum::{fixnum, Answer};
use super::width::is_fixnum;
use crate::refusal::{DONE, NOT_FIXNUM, UNOPENED};

/// The caller's record. Any five numbers can stand in it; `is_open` says which of them are a fold.
#[derive(Clone, Copy, Debug, PartialEq, Eq)]
pub struct Fold {
    pub width: u64,
    pub start: i64,
    pub end: i64,
    pub count: i64,
    pub accumulator: i64,
}

/// What a refused opening leaves.
pub const ZERO: Fold = Fold { width: 0, start: 0, end: 0, count: 0, accumulator: 0 };

impl Fold {
    /// Starts afresh with these settings, or leaves the zero record: the refusal number and place are then those of
    /// code 40 on the accumulator.
    pub fn open(&mut self, settings: Fold) -> Result<(), (u64, u64)> {
        let Answer { refusal, place, .. } = settings.rotation(settings.count);
        if refusal != DONE {
            *self = ZERO;
            return Err((refusal, place));
        }
        *self = settings;
        Ok(())
    }

    /// Whether opening with the record's own fields would be accepted.
    pub fn is_open(&self) -> bool {
        self.rotation(self.count).refusal == DONE
    }

    /// Folds the bytes, first to last.
    pub fn chunk(&mut self, bytes: &[u8]) -> Result<(), u64> {
        self.require_open()?;
        for &byte in bytes {
            self.accumulator = self.rotated_and_xored(self.count, i64::from(byte));
        }
        Ok(())
    }

    /// The accumulator.
    pub fn read(&self) -> Result<i64, u64> {
        self.require_open()?;
        Ok(self.accumulator)
    }

    /// Goes on as if the n bytes had been folded whose fold from 0, by the same settings, is the piece.
    pub fn join(&mut self, piece: i64, n: u64) -> Result<(), u64> {
        self.require_open()?;
        if !is_fixnum(self.width, i128::from(piece)) {
            return Err(NOT_FIXNUM);
        }
        self.accumulator = self.rotated_and_xored(self.net_count(n), piece);
        Ok(())
    }

    /// What the rotations of n bytes come to: count * n mod end - start, and 0 in an empty field.
    fn net_count(&self, n: u64) -> i64 {
        let exact = self.count as u128 * u128::from(n);
        let f = (self.end - self.start) as u128;
        exact.checked_rem(f).unwrap_or(0) as i64
    }

    /// The accumulator of an open record rotated by that count, and then xored with the fixnum.
    fn rotated_and_xored(&self, count: i64, x: i64) -> i64 {
        let rotated = self.rotation(count);
        let xored = fixnum(self.width, 28, [rotated.first, x, 0, 0], 2);
        assert_eq!((rotated.refusal, xored.refusal), (DONE, DONE), "{self:?} is open, and {x} a fixnum");
        xored.first
    }

    /// What code 40 answers on the accumulator, with the record's field and that count.
    fn rotation(&self, count: i64) -> Answer {
        fixnum(self.width, 40, [self.accumulator, self.start, self.end, count], 4)
    }

    fn require_open(&self) -> Result<(), u64> {
        if self.is_open() {
            Ok(())
        } else {
            Err(UNOPENED)
        }
    }
}
