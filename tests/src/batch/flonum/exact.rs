//! Flonums, and the numbers halfway between two of them, written out in decimal; by integers of any size.

use super::spelling::Parts;
use crate::reference::flonum::{significand_and_places, INFINITY};

/// One of nine decimal digits.
const BASE: u64 = 1_000_000_000;

/// digits * 10^exponent. The digits neither begin nor end with 0, and 0 has none.
#[derive(Clone, Debug, PartialEq, Eq)]
pub struct Decimal {
    pub digits: String,
    pub exponent: i64,
}

impl Decimal {
    pub fn of(parts: &Parts) -> Decimal {
        let digits = format!("{}{}", parts.whole, parts.fraction);
        Decimal::trimmed(&digits, parts.exponent - parts.fraction.len() as i64)
    }

    /// n / 2^places.
    pub fn quotient(n: u64, places: i64) -> Decimal {
        let (factor, exponent) = if places > 0 { (5, -places) } else { (2, 0) };
        let mut limbs = vec![n % BASE, n / BASE % BASE, n / BASE / BASE];
        for _ in 0..places.unsigned_abs() / 12 {
            multiply(&mut limbs, u64::pow(factor, 12));
        }
        multiply(&mut limbs, u64::pow(factor, (places.unsigned_abs() % 12) as u32));
        let digits: String = limbs.iter().rev().map(|limb| format!("{limb:09}")).collect();
        Decimal::trimmed(&digits, exponent)
    }

    fn trimmed(digits: &str, exponent: i64) -> Decimal {
        let significant = digits.trim_end_matches('0');
        let exponent = if significant.is_empty() { 0 } else { exponent + (digits.len() - significant.len()) as i64 };
        Decimal { digits: significant.trim_start_matches('0').to_string(), exponent }
    }
}

/// Limbs of nine digits, the least first.
fn multiply(limbs: &mut Vec<u64>, factor: u64) {
    let mut carry = 0;
    for limb in limbs.iter_mut() {
        let product = *limb * factor + carry;
        (*limb, carry) = (product % BASE, product / BASE);
    }
    if carry > 0 {
        limbs.push(carry);
    }
}

/// The number halfway between a finite magnitude and the next one, as n and the places of n / 2^places. Next to the
/// greatest stands 2^1024.
pub fn halfway_above(magnitude: u64) -> (u64, i64) {
    let (significand, places) = significand_and_places(magnitude);
    (2 * significand + 1, places + 1)
}

/// Whether a number that was read as that magnitude lies halfway between two flonums.
pub fn is_tie(number: &Decimal, magnitude: u64) -> bool {
    let below = magnitude.checked_sub(1);
    let above = (magnitude < INFINITY).then_some(magnitude);
    below.into_iter().chain(above).any(|x| {
        let (n, places) = halfway_above(x);
        // n is odd: with places, it has as many digits behind the point.
        let is_possible = if places > 0 { number.exponent == -places } else { number.exponent >= 0 };
        is_possible && Decimal::quotient(n, places) == *number
    })
}

#[cfg(test)]
mod tests {
    use super::super::spelling::{spelling, Body};
    use super::*;

    fn decimal(word: &str) -> Decimal {
        match spelling(word).expect(word).body {
            Body::Decimal(parts) => Decimal::of(&parts),
            other => panic!("{word}: {other:?}"),
        }
    }

    #[test]
    fn quotients() {
        for (n, places, word) in [
            (0, 5, "0"),
            (1, 0, "1"),
            (1, 1, ".5"),
            (3, 4, "0.1875"),
            (1, -64, "18446744073709551616"),
            (u64::MAX, 0, "18446744073709551615"),
            (1, 20, "0.00000095367431640625"),
            (5, -1, "1e1"),
            (1, -100, "1267650600228229401496703205376"),
        ] {
            assert_eq!(Decimal::quotient(n, places), decimal(word), "{word}");
        }
        let smallest = Decimal::quotient(1, 1074);
        assert!(smallest.digits.starts_with("4940656458412465") && smallest.digits.ends_with("625"));
        assert_eq!((smallest.digits.len(), smallest.exponent), (751, -1074));
    }

    #[test]
    fn ties() {
        for (word, magnitude, tie) in [
            ("9007199254740993", 0x4340_0000_0000_0000, true),
            ("9007199254740993.0001", 0x4340_0000_0000_0001, false),
            ("9007199254740995", 0x4340_0000_0000_0002, true),
            ("1e23", 0x44B5_2D02_C7E1_4AF6, true),
            ("1", 0x3FF0_0000_0000_0000, false),
            ("0.1", 0x3FB9_9999_9999_999A, false),
            ("0", 0, false),
            ("1e400", INFINITY, false),
        ] {
            assert_eq!(is_tie(&decimal(word), magnitude), tie, "{word}");
        }
        let (n, places) = halfway_above(INFINITY - 1);
        assert!(is_tie(&Decimal::quotient(n, places), INFINITY));
        let (n, places) = halfway_above(0);
        assert!(is_tie(&Decimal::quotient(n, places), 0));
    }

    #[test]
    fn flonums_are_read_back() {
        for x in [1, 3, 0x000F_FFFF_FFFF_FFFF, 0x3FB9_9999_9999_999A, INFINITY - 1] {
            let (significand, places) = significand_and_places(x);
            let Decimal { digits, exponent } = Decimal::quotient(significand, places);
            let number: f64 = format!("{digits}e{exponent}").parse().expect("a number");
            assert_eq!(number.to_bits(), x);
        }
    }
}
