//! A flonum as it is printed: in decimal, as C prints it by `%a`, in the spelling of glibc, and as bits.

use super::decimal;
use crate::reference::flonum::{is_nan, is_negative, magnitude, BIAS, FRACTION_BITS, HIDDEN, INFINITY};

pub fn flonum(x: u64) -> String {
    if is_nan(x) {
        return format!("nan nan {x:#018x}");
    }
    let sign = if is_negative(x) { "-" } else { "" };
    let magnitude = magnitude(x);
    format!("{sign}{} {sign}{} {x:#018x}", decimal::unsigned(magnitude), unsigned(magnitude))
}

/// A magnitude that is no NaN by `%a`.
pub fn unsigned(magnitude: u64) -> String {
    if magnitude == INFINITY {
        return "inf".to_string();
    }
    let (field, fraction) = (magnitude >> FRACTION_BITS, magnitude % HIDDEN);
    let digits = format!("{fraction:013x}");
    let digits = digits.trim_end_matches('0');
    let point = if digits.is_empty() { "" } else { "." };
    let (first, exponent) = match field {
        0 if fraction == 0 => (0, 0),
        0 => (0, 1 - BIAS as i64),
        _ => (1, field as i64 - BIAS as i64),
    };
    format!("0x{first}{point}{digits}p{exponent:+}")
}

#[cfg(test)]
mod tests {
    use super::*;
    use crate::reference::flonum::{NAN, SIGN};

    #[test]
    fn texts() {
        for (bits, text) in [
            (0, "0.0 0x0p+0 0x0000000000000000"),
            (SIGN, "-0.0 -0x0p+0 0x8000000000000000"),
            (1, "5e-324 0x0.0000000000001p-1022 0x0000000000000001"),
            (HIDDEN / 2, "1.1125369292536007e-308 0x0.8p-1022 0x0008000000000000"),
            (HIDDEN, "2.2250738585072014e-308 0x1p-1022 0x0010000000000000"),
            (0xC01C_0000_0000_0000, "-7.0 -0x1.cp+2 0xc01c000000000000"),
            (0x3FB9_9999_9999_999A, "0.1 0x1.999999999999ap-4 0x3fb999999999999a"),
            (INFINITY - 1, "1.7976931348623157e308 0x1.fffffffffffffp+1023 0x7fefffffffffffff"),
            (SIGN | INFINITY, "-inf -inf 0xfff0000000000000"),
            (NAN, "nan nan 0x7ff8000000000000"),
        ] {
            assert_eq!(flonum(bits), text);
        }
    }
}
