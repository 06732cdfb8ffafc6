//! The flonum calls in plain Rust, by the functions of f64.

use crate::binding::{Extremes, FlonumAnswer};

const ONE_NAN: f64 = f64::from_bits(0x7FF8_0000_0000_0000);

fn flonum(x: f64) -> FlonumAnswer {
    let flonum = if x.is_nan() { ONE_NAN } else { x };
    FlonumAnswer { refusal: 0, kind: 2, fixnum: 0, flonum }
}

fn truth(yes: bool) -> FlonumAnswer {
    FlonumAnswer { refusal: 0, kind: 1, fixnum: yes.into(), flonum: 0.0 }
}

fn refused(refusal: u64) -> FlonumAnswer {
    FlonumAnswer { refusal, kind: 0, fixnum: 0, flonum: 0.0 }
}

pub fn fixnum_to_flonum(width: u64, n: i64) -> FlonumAnswer {
    if !(24..=64).contains(&width) {
        return refused(1);
    }
    let limit = i64::MIN >> (64 - width);
    if n < limit || n > !limit {
        return refused(4);
    }
    flonum(n as f64)
}

pub fn floor(x: f64) -> FlonumAnswer {
    flonum(x.floor())
}

pub fn ceiling(x: f64) -> FlonumAnswer {
    flonum(x.ceil())
}

pub fn truncate(x: f64) -> FlonumAnswer {
    flonum(x.trunc())
}

pub fn round(x: f64) -> FlonumAnswer {
    flonum(x.round_ties_even())
}

pub fn abs(x: f64) -> FlonumAnswer {
    flonum(x.abs())
}

pub fn is_nan(x: f64) -> FlonumAnswer {
    truth(x.is_nan())
}

pub fn is_finite(x: f64) -> FlonumAnswer {
    truth(x.is_finite())
}

pub fn extremes(count: u64, args: [f64; 4]) -> Extremes {
    if !(1..=4).contains(&count) {
        return Extremes { refusal: 3, smallest: 0.0, largest: 0.0 };
    }
    let (mut smallest, mut largest) = (args[0], args[0]);
    for &x in &args[..count as usize] {
        if x.is_nan() {
            return Extremes { refusal: 0, smallest: ONE_NAN, largest: ONE_NAN };
        }
        if x < smallest {
            smallest = x;
        }
        if x > largest {
            largest = x;
        }
    }
    Extremes { refusal: 0, smallest, largest }
}
