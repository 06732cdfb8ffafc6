//! Hexadecimal digits and an exponent of 2, as the nearest flonum, by integers.

use super::spelling::Parts;
use crate::reference::flonum::{BIAS, FRACTION_BITS, HIDDEN, INFINITY};

/// How many significant digits are kept as they are: 96 bits. Of the others it matters only whether one is not 0.
const KEPT: usize = 24;
/// The exponent of the last bit of a subnormal.
const LAST: i64 = 1 - (BIAS + FRACTION_BITS) as i64;

/// The bits of the nearest flonum, of two that are as near the even one; and whether there were two.
pub fn nearest(parts: &Parts) -> (u64, bool) {
    let all = format!("{}{}", parts.whole, parts.fraction);
    let digits = all.trim_start_matches('0');
    let (kept, rest) = digits.split_at(digits.len().min(KEPT));
    if kept.is_empty() {
        return (0, false);
    }
    // Two bits more keep a number that has a rest off both the flonums and the ties.
    let n = u128::from_str_radix(kept, 16).expect("hexadecimal digits") << 2;
    let n = n | u128::from(rest.bytes().any(|byte| byte != b'0'));
    let places = 4 * (parts.fraction.len() as i64 - rest.len() as i64) + 2;
    rounded(n, parts.exponent - places)
}

/// n * 2^exponent, rounded; n is not 0.
fn rounded(n: u128, exponent: i64) -> (u64, bool) {
    let length = i64::from(u128::BITS - n.leading_zeros());
    let last = (exponent + length - 1 - FRACTION_BITS as i64).max(LAST);
    let dropped = last - exponent;
    let (significand, tie) = match dropped {
        // Nothing is dropped from a short number, which is brought to 53 bits or to the last bit of a subnormal.
        ..=0 => (n << -dropped, false),
        // More than all bits: below half of the smallest flonum.
        127.. => (0, false),
        _ => half_even(n, dropped as u32),
    };
    // The hidden bit, and a carry to 2^53, add to the exponent.
    let significand = significand as u64;
    let bits = ((last - LAST) as u64).saturating_mul(HIDDEN).saturating_add(significand);
    // The last tie is the one that carries to 2^1024.
    let is_tie = tie && (bits < INFINITY || (bits == INFINITY && significand == 2 * HIDDEN));
    (bits.min(INFINITY), is_tie)
}

fn half_even(n: u128, places: u32) -> (u128, bool) {
    let (whole, rest, half) = (n >> places, n % (1 << places), 1 << (places - 1));
    let up = rest > half || (rest == half && whole % 2 == 1);
    (whole + u128::from(up), rest == half)
}

#[cfg(test)]
mod tests {
    use super::super::exact::{is_tie, Decimal};
    use super::super::spelling::{spelling, Body};
    use super::*;
    use crate::random::Random;

    fn read(word: &str) -> (u64, bool) {
        match spelling(word).expect(word).body {
            Body::Hexadecimal(parts) => nearest(&parts),
            other => panic!("{word}: {other:?}"),
        }
    }

    #[test]
    fn exact() {
        for (word, bits) in [
            ("0x0p+0", 0),
            ("0x.000p1500", 0),
            ("0x1p+0", 0x3FF0_0000_0000_0000),
            ("0x10p-4", 0x3FF0_0000_0000_0000),
            ("0x.08p5", 0x3FF0_0000_0000_0000),
            ("0x1.fffffffffffffp+1023", INFINITY - 1),
            ("0x0.8p-1022", HIDDEN / 2),
            ("0x1p-1074", 1),
            ("0x1p-1022", HIDDEN),
            ("0x3.p-1074", 3),
        ] {
            assert_eq!(read(word), (bits, false), "{word}");
        }
        let zeros = "0".repeat(370);
        assert_eq!(read(&format!("0x1{zeros}p-1480")), (0x3FF0_0000_0000_0000, false));
        assert_eq!(read(&format!("0x.{zeros}1p1484")), (0x3FF0_0000_0000_0000, false));
    }

    #[test]
    fn rounded_ones() {
        for (word, bits, tie) in [
            ("0x1.00000000000008p0", 0x3FF0_0000_0000_0000, true),
            ("0x1.00000000000018p0", 0x3FF0_0000_0000_0002, true),
            ("0x1.00000000000008000000000000000000001p0", 0x3FF0_0000_0000_0001, false),
            ("0x1.00000000000007fffffffffffffffffffp0", 0x3FF0_0000_0000_0000, false),
            ("0x1.fffffffffffff8p0", 0x4000_0000_0000_0000, true),
            ("0x1.fffffffffffff7p+1023", INFINITY - 1, false),
            ("0x1.fffffffffffff8p+1023", INFINITY, true),
            ("0x1p1024", INFINITY, false),
            ("0xffp1500", INFINITY, false),
            ("0x1p-1075", 0, true),
            ("0x1.8p-1075", 1, false),
            ("0x3p-1075", 2, true),
            ("0x1p-1076", 0, false),
            ("0x1p-1500", 0, false),
            ("0x0.fffffffffffff8p-1022", HIDDEN, true),
        ] {
            assert_eq!(read(word), (bits, tie), "{word}");
        }
    }

    /// The same numbers written out in decimal are read as the same flonums, and are ties by their digits too.
    #[test]
    fn decimals_agree() {
        let mut random = Random::new(1);
        for _ in 0..20_000 {
            let (n, exponent) = (random.next_u64() >> random.below(64), random.between(-1150, 1030));
            let (bits, tie) = read(&format!("0x{n:x}p{exponent}"));
            let number = Decimal::quotient(n, -exponent);
            let decimal: f64 = format!("0{}e{}", number.digits, number.exponent).parse().expect("a number");
            assert_eq!((bits, tie), (decimal.to_bits(), is_tie(&number, bits)), "{n:#x} * 2^{exponent}");
        }
    }
}
