//! The flonum that a word is read as: the nearest one, ties to even.

use super::hexadecimal;
use super::spelling::{Body, Parts, Spelling};
use crate::reference::flonum::{INFINITY, NAN, SIGN};

/// The bits of the flonum. A NaN has no sign.
pub fn value(spelling: &Spelling) -> u64 {
    let magnitude = match &spelling.body {
        Body::Nan => return NAN,
        Body::Infinity => INFINITY,
        Body::Decimal(parts) => decimal(parts),
        Body::Hexadecimal(parts) => hexadecimal::nearest(parts).0,
    };
    magnitude | if spelling.negative { SIGN } else { 0 }
}

/// Rust's own reading, which rounds correctly. No other text than digits and an exponent comes to it.
fn decimal(parts: &Parts) -> u64 {
    let Parts { whole, fraction, exponent } = parts;
    let number: f64 = format!("{whole}.{fraction}e{exponent}").parse().expect("digits and an exponent");
    number.to_bits()
}

#[cfg(test)]
mod tests {
    use super::super::spelling::spelling;
    use super::*;

    #[test]
    fn values() {
        for (word, bits) in [
            ("0.1", 0x3FB9_9999_9999_999A),
            ("-.0", SIGN),
            ("1.", 0x3FF0_0000_0000_0000),
            ("-5e-324", SIGN | 1),
            ("1.5e300", 0x7E41_EB2D_6600_5835),
            ("1e400", INFINITY),
            ("-1e1500", SIGN | INFINITY),
            ("1e-400", 0),
            ("-1e-1500", SIGN),
            ("9007199254740993", 0x4340_0000_0000_0000),
            ("9007199254740993.0000000000000000000001", 0x4340_0000_0000_0001),
            ("1e23", 0x44B5_2D02_C7E1_4AF6),
            ("-inf", SIGN | INFINITY),
            ("-nan", NAN),
            ("-0x1.8p+1", 0xC008_0000_0000_0000),
        ] {
            assert_eq!(value(&spelling(word).expect(word)), bits, "{word}");
        }
    }
}
