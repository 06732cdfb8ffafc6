//! What the compared calls on folds have to show beside their answers: each of these cases has to come.

use quebralua_reference::fold_call::{FoldAnswer, FoldCall};
use quebralua_reference::reference::fold::{Fold, ZERO};
use quebralua_reference::refusal::{DONE, UNOPENED};
use std::fmt;

/// From how many bytes on a chunk is long.
pub const LONG: usize = 100_000;

/// A case by name, and whether a call is one.
type Case = (&'static str, fn(&Seen) -> bool);

const CASES: [Case; 18] = [
    ("opened with an empty field", |seen| seen.opened().is_some_and(is_empty)),
    ("opened with a full rotation", |seen| seen.opened().is_some_and(is_full)),
    ("opened with a field up to the sign", |seen| seen.opened().is_some_and(|fold| fold.end == fold.width as i64 - 1)),
    ("opened over an open record", |seen| seen.opened().is_some() && seen.record.is_open()),
    ("opened over an unopened record", |seen| seen.opened().is_some() && !seen.record.is_open()),
    ("opening refused over an open record", |seen| seen.is_refused_opening() && seen.record.is_open()),
    ("empty chunk", |seen| seen.folded().is_some_and(|bytes| bytes.is_empty())),
    ("long chunk", |seen| seen.folded().is_some_and(|bytes| bytes.len() >= LONG)),
    ("chunk with a byte from 0x80 on", |seen| seen.folded().is_some_and(|bytes| bytes.iter().any(|&b| b >= 0x80))),
    ("chunk with an empty field", |seen| seen.has_bytes() && is_empty(seen.record)),
    ("chunk with a full rotation", |seen| seen.has_bytes() && is_full(seen.record)),
    ("chunk on a negative accumulator", |seen| seen.has_bytes() && seen.record.accumulator < 0),
    ("empty chunk on an unopened record", |seen| seen.is_unopened() && matches!(seen.call, FoldCall::Chunk([]))),
    ("unopened record that is not zero", |seen| seen.is_unopened() && *seen.record != ZERO),
    ("join of no bytes", |seen| seen.joined() == Some(0)),
    ("join whose count times bytes is beyond 64 bits", |seen| {
        seen.joined().is_some_and(|n| n.checked_mul(seen.record.count as u64).is_none())
    }),
    ("join with an empty field", |seen| seen.joined().is_some_and(|n| n > 0) && is_empty(seen.record)),
    ("join with a full rotation", |seen| seen.joined().is_some_and(|n| n > 0) && is_full(seen.record)),
];

/// A call that was compared. The record is as it was before.
struct Seen<'a> {
    record: &'a Fold,
    call: &'a FoldCall<'a>,
    refusal: u64,
}

impl Seen<'_> {
    /// The settings of an opening that was done.
    fn opened(&self) -> Option<&Fold> {
        match self.call {
            FoldCall::Open(settings) if self.refusal == DONE => Some(settings),
            _ => None,
        }
    }

    fn is_refused_opening(&self) -> bool {
        matches!(self.call, FoldCall::Open(_)) && self.refusal != DONE
    }

    /// The bytes of a chunk that was done.
    fn folded(&self) -> Option<&[u8]> {
        match self.call {
            FoldCall::Chunk(bytes) if self.refusal == DONE => Some(bytes),
            _ => None,
        }
    }

    fn has_bytes(&self) -> bool {
        self.folded().is_some_and(|bytes| !bytes.is_empty())
    }

    /// The number of bytes of a join that was done.
    fn joined(&self) -> Option<u64> {
        match self.call {
            FoldCall::Join { n, .. } if self.refusal == DONE => Some(*n),
            _ => None,
        }
    }

    fn is_unopened(&self) -> bool {
        self.refusal == UNOPENED
    }
}

fn is_empty(fold: &Fold) -> bool {
    fold.start == fold.end
}

fn is_full(fold: &Fold) -> bool {
    fold.count > 0 && fold.count == fold.end - fold.start
}

pub struct FoldCases {
    /// In the order of `CASES`.
    counts: [u64; CASES.len()],
}

impl FoldCases {
    pub fn new() -> FoldCases {
        FoldCases { counts: [0; CASES.len()] }
    }

    /// Counts the cases of one call. The record is as it was before.
    pub fn count(&mut self, record: &Fold, call: &FoldCall, answer: FoldAnswer) {
        let seen = Seen { record, call, refusal: answer.refusal };
        for (count, (_, is)) in self.counts.iter_mut().zip(CASES) {
            *count += u64::from(is(&seen));
        }
    }

    /// Every case that did not come.
    pub fn missing(&self) -> impl Iterator<Item = String> + '_ {
        let without = CASES.iter().zip(self.counts).filter(|&(_, count)| count == 0);
        without.map(|((name, _), _)| format!("folds: no call of the kind: {name}"))
    }
}

impl fmt::Display for FoldCases {
    fn fmt(&self, f: &mut fmt::Formatter) -> fmt::Result {
        write!(f, "calls on folds")?;
        for ((name, _), count) in CASES.iter().zip(self.counts) {
            write!(f, "\n  {name:48}{count:>10}")?;
        }
        Ok(())
    }
}
