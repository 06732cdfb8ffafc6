//! Folds as a program writes them that uses the binding. The results are worked out by hand: 0x01; rotated 0x02, xor 0x80
//! is 0x82; rotated in 8 bits 0x05, xor 0xFF is 0xFA.

use crate::binding::{FixnumRefusal, Fold, Refusal};
use crate::report::difference;
use std::fmt::Debug;

pub fn run() {
    require("chunks", chunks(), Ok(0xFA));
    require("join", joined(), Ok(0xFA));
    require("unopened", Fold::default().read().result(), Err(Refusal::Unopened));
    require("bad width", Fold::new(23, 0, 8, 1, 0), refused(Refusal::Width, None));
    require("bad accumulator", Fold::new(24, 0, 8, 1, 1 << 23), refused(Refusal::NotFixnum, Some(1)));
    require("bad end", Fold::new(24, 8, 0, 1, 0), refused(Refusal::Domain, Some(3)));
    require("refused over an open fold", reopened(), Ok((Err(Refusal::Unopened), Fold::default())));
}

fn chunks() -> Result<i64, Refusal> {
    let mut fold = Fold::new(24, 0, 8, 1, 0)?;
    fold.chunk(&[0x01]).result()?;
    fold.chunk(&[]).result()?;
    fold.chunk(&[0x80, 0xFF]).result()?;
    fold.read().result()
}

/// The last two bytes come to 0xFE by themselves: 0x80, rotated 0x01, xor 0xFF.
fn joined() -> Result<i64, Refusal> {
    let mut fold = Fold::new(24, 0, 8, 1, 0)?;
    fold.chunk(&[0x01]).result()?;
    let mut part = Fold { accumulator: 0, ..fold };
    part.chunk(&[0x80, 0xFF]).result()?;
    require("part", part.accumulator, 0xFE);
    fold.join(part.read().result()?, 2).result()?;
    fold.read().result()
}

/// What a chunk answers after a refused opening, and the record.
fn reopened() -> Result<(Result<(), Refusal>, Fold), Refusal> {
    let mut fold = Fold::new(24, 0, 8, 1, 0)?;
    let opened = fold.open(24, 0, 8, 9, 0).result();
    require("bad count", opened, refused(Refusal::Domain, Some(4)));
    Ok((fold.chunk(b"more").result(), fold))
}

fn refused<T>(refusal: Refusal, place: Option<u64>) -> Result<T, FixnumRefusal> {
    Err(FixnumRefusal { refusal, place })
}

fn require<T: Debug + PartialEq>(name: &str, got: T, expected: T) {
    if got != expected {
        difference(&format!("the binding: {name}"), &format!("{expected:?}"), &format!("{got:?}"));
    }
}
