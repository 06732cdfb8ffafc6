//! Flonums as a program uses them by the binding. The bits are worked out by hand: 0x3FF is the exponent of 1.0, 0x401
//! of 4.0 to 8.0, and 7 is 4.0 times 1.75, whose fraction begins with the bits 11.

use crate::binding::*;
use crate::report::difference;
use std::fmt::Debug;

const SEVEN: u64 = 0x401C_0000_0000_0000;
const THREE_AND_A_HALF: u64 = 0x400C_0000_0000_0000;
const FOUR: u64 = 0x4010_0000_0000_0000;
const MINUS_ZERO: u64 = 1 << 63;
const NAN: u64 = 0x7FF8_0000_0000_0000;

pub fn run() {
    require("7", flonum(fixnum_to_flonum(24, 7)), Ok(SEVEN));
    require("bad width", flonum(fixnum_to_flonum(23, 7)), Err(Refusal::Width));
    require("no fixnum", flonum(fixnum_to_flonum(24, 1 << 23)), Err(Refusal::NotFixnum));
    let x = f64::from_bits(THREE_AND_A_HALF);
    require("3.5 rounded", flonum(flround(x)), Ok(FOUR));
    require("-0.25 up", flonum(flceiling(f64::from_bits(0xBFD0_0000_0000_0000))), Ok(MINUS_ZERO));
    require("absolute", flonum(flabs(f64::from_bits(SEVEN | MINUS_ZERO))), Ok(SEVEN));
    require("a NaN", fixnum(flnan(f64::from_bits(NAN + 1))), Ok(1));
    require("finite", fixnum(flfinite(f64::from_bits(NAN + 1))), Ok(0));
    require("bits of a NaN", flonum_bits(f64::from_bits(u64::MAX)), NAN);
    let flonums = [SEVEN, MINUS_ZERO, 0, FOUR].map(f64::from_bits);
    require("extremes", extremes(flextremes(3, flonums)), Ok([MINUS_ZERO, SEVEN]));
    require("of one", extremes(flextremes(1, flonums)), Ok([SEVEN; 2]));
    require("of none", extremes(flextremes(0, flonums)), Err(Refusal::ArgumentCount));
    require("of five", extremes(flextremes(5, flonums)), Err(Refusal::ArgumentCount));
}

/// The bits of an answer that is to be a flonum.
fn flonum(answer: FlonumAnswer) -> Result<u64, Refusal> {
    match answer.result()? {
        Number::Flonum(x) => Ok(x.to_bits()),
        Number::Fixnum(n) => difference("the binding", "a flonum", &format!("the fixnum {n}")),
    }
}

/// An answer that is to be a fixnum.
fn fixnum(answer: FlonumAnswer) -> Result<i64, Refusal> {
    match answer.result()? {
        Number::Fixnum(n) => Ok(n),
        Number::Flonum(x) => difference("the binding", "a fixnum", &format!("the flonum {:#x}", x.to_bits())),
    }
}

fn extremes(answer: Extremes) -> Result<[u64; 2], Refusal> {
    let (smallest, largest) = answer.result()?;
    Ok([smallest, largest].map(f64::to_bits))
}

fn require<T: Debug + PartialEq>(name: &str, got: T, expected: T) {
    if got != expected {
        difference(&format!("the binding: {name}"), &format!("{expected:x?}"), &format!("{got:x?}"));
    }
}
