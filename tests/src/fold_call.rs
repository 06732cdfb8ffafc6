//! The description of one call on the record of a fold, what the second implementation answers to it, and its text as C.

use crate::call::{c_array, c_pointer, c_signed, c_unsigned};
use crate::reference::fold::Fold;
use crate::refusal::{DOMAIN, DONE, NOT_FIXNUM, UNOPENED, WIDTH};

#[derive(Clone, Copy, Debug, PartialEq, Eq)]
pub enum FoldOperation {
    Open,
    Chunk,
    Read,
    Join,
}

/// A call, without the record that it is made on.
#[derive(Clone, Copy, Debug)]
pub enum FoldCall<'a> {
    /// With these settings.
    Open(Fold),
    Chunk(&'a [u8]),
    Read,
    Join {
        piece: i64,
        n: u64,
    },
}

/// The answer of any of the four. Place and value are 0 where the call answers none.
#[derive(Clone, Copy, Debug, PartialEq, Eq)]
pub struct FoldAnswer {
    pub refusal: u64,
    pub place: u64,
    pub value: i64,
}

impl FoldOperation {
    pub const ALL: [FoldOperation; 4] =
        [FoldOperation::Open, FoldOperation::Chunk, FoldOperation::Read, FoldOperation::Join];

    /// The name of the C function.
    pub fn name(self) -> &'static str {
        match self {
            FoldOperation::Open => "ql_fold_open",
            FoldOperation::Chunk => "ql_fold_chunk",
            FoldOperation::Read => "ql_fold_read",
            FoldOperation::Join => "ql_fold_join",
        }
    }

    /// Each refusal number, 0 for done, with each place that it can carry.
    pub fn answers(self) -> Vec<(u64, u64)> {
        let alone = |refusals: &[u64]| refusals.iter().map(|&refusal| (refusal, 0)).collect();
        match self {
            FoldOperation::Open => {
                let not_fixnum = (1..=4).map(|place| (NOT_FIXNUM, place));
                let domain = (2..=4).map(|place| (DOMAIN, place));
                [(DONE, 0), (WIDTH, 0)].into_iter().chain(not_fixnum).chain(domain).collect()
            }
            FoldOperation::Chunk | FoldOperation::Read => alone(&[DONE, UNOPENED]),
            FoldOperation::Join => alone(&[DONE, NOT_FIXNUM, UNOPENED]),
        }
    }
}

impl FoldCall<'_> {
    pub fn operation(&self) -> FoldOperation {
        match self {
            FoldCall::Open(_) => FoldOperation::Open,
            FoldCall::Chunk(_) => FoldOperation::Chunk,
            FoldCall::Read => FoldOperation::Read,
            FoldCall::Join { .. } => FoldOperation::Join,
        }
    }

    /// The width that it is made at: that of the settings, or of the record before it.
    pub fn width(&self, record: &Fold) -> u64 {
        match self {
            FoldCall::Open(settings) => settings.width,
            _ => record.width,
        }
    }

    /// The answer of the second implementation, which changes the record as the call does.
    pub fn answer(&self, record: &mut Fold) -> FoldAnswer {
        let result = match *self {
            FoldCall::Open(settings) => record.open(settings).map(|()| 0),
            FoldCall::Chunk(bytes) => record.chunk(bytes).map(|()| 0).map_err(without_place),
            FoldCall::Read => record.read().map_err(without_place),
            FoldCall::Join { piece, n } => record.join(piece, n).map(|()| 0).map_err(without_place),
        };
        match result {
            Ok(value) => FoldAnswer { refusal: DONE, place: 0, value },
            Err((refusal, place)) => FoldAnswer { refusal, place, value: 0 },
        }
    }

    /// The call on that record as C statements.
    pub fn as_c(&self, record: &Fold) -> String {
        let declared = format!("ql_fold fold = {{{}}};\n", c_fields(record));
        let name = self.operation().name();
        match *self {
            FoldCall::Open(settings) => format!("{declared}{name}(&fold, {});", c_fields(&settings)),
            FoldCall::Chunk(bytes) => {
                let array = c_array("uint8_t", "bytes", bytes);
                format!("{declared}{array}{name}(&fold, {});", c_pointer("bytes", bytes))
            }
            FoldCall::Read => format!("{declared}{name}(&fold);"),
            FoldCall::Join { piece, n } => {
                format!("{declared}{name}(&fold, {}, {});", c_signed(piece), c_unsigned(n))
            }
        }
    }
}

fn without_place(refusal: u64) -> (u64, u64) {
    (refusal, 0)
}

fn c_fields(fold: &Fold) -> String {
    let numbers = [fold.start, fold.end, fold.count, fold.accumulator].map(c_signed);
    format!("{}, {}", c_unsigned(fold.width), numbers.join(", "))
}
