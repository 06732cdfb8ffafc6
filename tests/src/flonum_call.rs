//! The description of one flonum call, what the second implementation answers to it, and its text as C. Flonums are
//! given as their bits.

use self::FlonumOperation::*;
use crate::call::{c_array, c_signed, c_unsigned};
use crate::reference::flonum::conversion::fixnum_to_flonum;
use crate::reference::flonum::extremes::extremes;
use crate::reference::flonum::rounding::Rounding;
use crate::reference::flonum::{abs, canonical, is_finite, is_nan};
use crate::refusal::{COUNT, DONE, NOT_FIXNUM, WIDTH};

#[derive(Clone, Copy, Debug, PartialEq, Eq)]
pub enum FlonumOperation {
    FixnumToFlonum,
    Floor,
    Ceiling,
    Truncate,
    Round,
    Abs,
    Nan,
    Finite,
    Bits,
    Extremes,
}

/// A call. What the operation does not take is 0.
#[derive(Clone, Copy, Debug)]
pub struct FlonumCall {
    pub operation: FlonumOperation,
    pub width: u64,
    pub fixnum: i64,
    /// How many of the flonums count: 1 but for `Extremes`, where it is what the call is given.
    pub count: u64,
    pub flonums: [u64; 4],
}

/// The answer of a call, by the three forms that the C functions have.
#[derive(Clone, Copy, Debug, PartialEq, Eq)]
pub enum FlonumAnswer {
    One { refusal: u64, kind: u64, fixnum: i64, flonum: u64 },
    Extremes { refusal: u64, smallest: u64, largest: u64 },
    Bits(u64),
}

impl FlonumOperation {
    pub const ALL: [FlonumOperation; 10] =
        [FixnumToFlonum, Floor, Ceiling, Truncate, Round, Abs, Nan, Finite, Bits, Extremes];
    pub const ROUNDINGS: [FlonumOperation; 4] = [Floor, Ceiling, Truncate, Round];
    /// Those that take one flonum.
    pub const UNARY: [FlonumOperation; 8] = [Floor, Ceiling, Truncate, Round, Abs, Nan, Finite, Bits];

    /// The name of the C function.
    pub fn name(self) -> &'static str {
        match self {
            FixnumToFlonum => "ql_fixnum_to_flonum",
            Floor => "ql_flfloor",
            Ceiling => "ql_flceiling",
            Truncate => "ql_fltruncate",
            Round => "ql_flround",
            Abs => "ql_flabs",
            Nan => "ql_flnan",
            Finite => "ql_flfinite",
            Bits => "ql_flonum_bits",
            Extremes => "ql_flextremes",
        }
    }

    /// Each refusal number, 0 for done.
    pub fn answers(self) -> &'static [u64] {
        match self {
            FixnumToFlonum => &[DONE, WIDTH, NOT_FIXNUM],
            Extremes => &[DONE, COUNT],
            _ => &[DONE],
        }
    }
}

impl FlonumCall {
    pub fn fixnum_to_flonum(width: u64, fixnum: i64) -> FlonumCall {
        FlonumCall { operation: FixnumToFlonum, width, fixnum, count: 0, flonums: [0; 4] }
    }

    /// A call of one flonum.
    pub fn unary(operation: FlonumOperation, x: u64) -> FlonumCall {
        assert!(FlonumOperation::UNARY.contains(&operation));
        FlonumCall { operation, width: 0, fixnum: 0, count: 1, flonums: [x, 0, 0, 0] }
    }

    pub fn extremes(count: u64, flonums: [u64; 4]) -> FlonumCall {
        FlonumCall { operation: Extremes, width: 0, fixnum: 0, count, flonums }
    }

    /// The answer of the second implementation.
    pub fn answer(&self) -> FlonumAnswer {
        let x = self.flonums[0];
        match self.operation {
            FixnumToFlonum => fixnum_to_flonum(self.width, self.fixnum).map_or_else(refused, flonum),
            Floor => flonum(Rounding::Floor.of(x)),
            Ceiling => flonum(Rounding::Ceiling.of(x)),
            Truncate => flonum(Rounding::Truncate.of(x)),
            Round => flonum(Rounding::Round.of(x)),
            Abs => flonum(abs(x)),
            Nan => fixnum(is_nan(x)),
            Finite => fixnum(is_finite(x)),
            Bits => FlonumAnswer::Bits(canonical(x)),
            Extremes => match extremes(self.count, self.flonums) {
                Ok((smallest, largest)) => FlonumAnswer::Extremes { refusal: DONE, smallest, largest },
                Err(refusal) => FlonumAnswer::Extremes { refusal, smallest: 0, largest: 0 },
            },
        }
    }

    /// The call as C statements.
    pub fn as_c(&self) -> String {
        let name = self.operation.name();
        if self.operation == FixnumToFlonum {
            return format!("{name}({}, {});", c_unsigned(self.width), c_signed(self.fixnum));
        }
        let places = if self.operation == Extremes { 4 } else { 1 };
        let bits = c_array("uint64_t", "bits", &self.flonums[..places]);
        let count = (self.operation == Extremes).then(|| c_unsigned(self.count));
        let args: Vec<String> = count.into_iter().chain((0..places).map(|i| format!("x[{i}]"))).collect();
        format!("{bits}double x[{places}];\nmemcpy(x, bits, sizeof x);\n{name}({});", args.join(", "))
    }
}

impl FlonumAnswer {
    pub fn refusal(self) -> u64 {
        match self {
            FlonumAnswer::One { refusal, .. } | FlonumAnswer::Extremes { refusal, .. } => refusal,
            FlonumAnswer::Bits(_) => DONE,
        }
    }
}

fn flonum(flonum: u64) -> FlonumAnswer {
    FlonumAnswer::One { refusal: DONE, kind: 2, fixnum: 0, flonum }
}

/// Yes is 1, no is 0.
fn fixnum(is: bool) -> FlonumAnswer {
    FlonumAnswer::One { refusal: DONE, kind: 1, fixnum: i64::from(is), flonum: 0 }
}

fn refused(refusal: u64) -> FlonumAnswer {
    FlonumAnswer::One { refusal, kind: 0, fixnum: 0, flonum: 0 }
}
