//! A flonum as it is printed in decimal: with the fewest digits that are read as it.

use crate::reference::flonum::INFINITY;

/// Whole numbers of more digits than this, and numbers below 10^-6, have an exponent.
const MOST_DIGITS: i64 = 16;
const MOST_ZEROS: i64 = 6;

/// A magnitude that is no NaN. The digits are those of Rust, which are the fewest.
pub fn unsigned(magnitude: u64) -> String {
    match magnitude {
        0 => return "0.0".to_string(),
        INFINITY => return "inf".to_string(),
        _ => (),
    }
    let shortest = format!("{:e}", f64::from_bits(magnitude));
    let (significand, exponent) = shortest.split_once('e').expect("an exponent");
    let digits = significand.replace('.', "");
    let exponent: i64 = exponent.parse().expect("a number");
    laid_out(&digits, exponent + 1)
}

/// The digits with the point after the first `point` of them, which may be negative or more than there are.
fn laid_out(digits: &str, point: i64) -> String {
    let count = digits.len() as i64;
    match point {
        ..=0 if -point < MOST_ZEROS => format!("0.{}{digits}", "0".repeat(-point as usize)),
        1..=MOST_DIGITS if count <= point => format!("{digits}{}.0", "0".repeat((point - count) as usize)),
        1..=MOST_DIGITS => format!("{}.{}", &digits[..point as usize], &digits[point as usize..]),
        _ => format!("{}e{}", pointed(digits), point - 1),
    }
}

/// The digits with a point after the first, if there are more.
fn pointed(digits: &str) -> String {
    match digits.split_at(1) {
        (first, "") => first.to_string(),
        (first, rest) => format!("{first}.{rest}"),
    }
}

#[cfg(test)]
mod tests {
    use super::*;

    #[test]
    fn texts() {
        for (bits, text) in [
            (0, "0.0"),
            (1, "5e-324"),
            (0x3FB9_9999_9999_999A, "0.1"),
            (0x3EB0_C6F7_A0B5_ED8D, "0.000001"),
            (0x3E7A_D7F2_9ABC_AF48, "1e-7"),
            (0x4059_0000_0000_0000, "100.0"),
            (0x4004_0000_0000_0000, "2.5"),
            (0x4340_0000_0000_0000, "9007199254740992.0"),
            (0x4341_C379_37E0_8000, "1e16"),
            (0x43E0_0000_0000_0000, "9.223372036854776e18"),
            (INFINITY - 1, "1.7976931348623157e308"),
            (INFINITY, "inf"),
        ] {
            assert_eq!(unsigned(bits), text);
        }
    }
}
