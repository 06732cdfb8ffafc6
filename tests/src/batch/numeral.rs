//! Numbers as words, in every notation that docs/API.md names.

use super::text::absolute;
use crate::random::Random;

#[derive(Clone, Copy, Debug, PartialEq, Eq)]
pub enum Notation {
    Decimal,
    Hexadecimal,
    Binary,
    SchemeHexadecimal,
    SchemeBinary,
    SchemeOctal,
    SchemeDecimal,
}

use Notation::*;

impl Notation {
    pub const ALL: [Notation; 7] =
        [Decimal, Hexadecimal, Binary, SchemeHexadecimal, SchemeBinary, SchemeOctal, SchemeDecimal];

    fn digits(self, magnitude: u128) -> String {
        match self {
            Decimal | SchemeDecimal => magnitude.to_string(),
            Hexadecimal | SchemeHexadecimal => format!("{magnitude:x}"),
            Binary | SchemeBinary => format!("{magnitude:b}"),
            SchemeOctal => format!("{magnitude:o}"),
        }
    }

    /// Sign and digits after a prefix, or between sign and digits.
    fn assembled(self, sign: &str, digits: &str) -> String {
        match self {
            Decimal => format!("{sign}{digits}"),
            Hexadecimal => format!("{sign}0x{digits}"),
            Binary => format!("{sign}0b{digits}"),
            SchemeHexadecimal => format!("#x{sign}{digits}"),
            SchemeBinary => format!("#b{sign}{digits}"),
            SchemeOctal => format!("#o{sign}{digits}"),
            SchemeDecimal => format!("#d{sign}{digits}"),
        }
    }
}

/// A number in a random notation, half of them in decimal.
pub fn number(random: &mut Random, n: i128) -> String {
    let notation = if random.one_in(2) { Decimal } else { random.choose(&Notation::ALL) };
    written(random, notation, n < 0, &notation.digits(n.unsigned_abs()))
}

/// An integer in limbs: in hexadecimal, or in any notation where it has at most 64 bits.
pub fn integer(random: &mut Random, limbs: &[u32]) -> String {
    let (negative, digits) = absolute(limbs);
    match u64::from_str_radix(&digits, 16) {
        Ok(magnitude) if random.one_in(2) => {
            let magnitude = i128::from(magnitude);
            number(random, if negative { -magnitude } else { magnitude })
        }
        _ => hexadecimal(random, negative, &digits),
    }
}

/// Hexadecimal digits after `0x` or `#x`.
pub fn hexadecimal(random: &mut Random, negative: bool, digits: &str) -> String {
    let notation = random.choose(&[Hexadecimal, SchemeHexadecimal]);
    written(random, notation, negative, digits)
}

/// With a sign where it needs one and at times where it does not, leading zeros at times, in either case or both.
fn written(random: &mut Random, notation: Notation, negative: bool, digits: &str) -> String {
    let zero = digits == "0";
    let sign = match random.below(8) {
        _ if negative => "-",
        0 => "+",
        1 if zero => "-",
        _ => "",
    };
    let zeros = if random.one_in(8) { &"000"[..1 + random.below(3) as usize] } else { "" };
    let word = notation.assembled(sign, &format!("{zeros}{digits}"));
    match random.below(8) {
        0 => word.to_ascii_uppercase(),
        1 => word.chars().map(|c| if random.one_in(2) { c.to_ascii_uppercase() } else { c }).collect(),
        _ => word,
    }
}

#[cfg(test)]
mod tests {
    use super::super::reader;
    use super::*;
    use crate::random_arguments::limbs::accepted_operand;
    use crate::reference::integer::Integer;

    #[test]
    fn every_notation() {
        let words: Vec<String> = Notation::ALL.map(|n| n.assembled("-", &n.digits(31))).to_vec();
        assert_eq!(words, ["-31", "-0x1f", "-0b11111", "#x-1f", "#b-11111", "#o-37", "#d-31"]);
    }

    #[test]
    fn numbers_are_read_back() {
        let mut random = Random::new(1);
        for _ in 0..20_000 {
            let n = random.next_i64() >> random.below(64);
            let word = number(&mut random, i128::from(n));
            assert_eq!(reader::number(&word), Some(n), "{word}");
        }
        let beyond = number(&mut random, 1 << 63);
        assert_eq!(reader::number(&beyond), None, "{beyond}");
    }

    #[test]
    fn integers_are_read_back() {
        let mut random = Random::new(2);
        for _ in 0..2_000 {
            let limbs = accepted_operand(&mut random);
            let word = integer(&mut random, &limbs);
            let shortest = Integer::from_limbs(&limbs).to_limbs();
            let digits = word.bytes().filter(|byte| byte.is_ascii_hexdigit()).count();
            if digits <= reader::MOST_DIGITS {
                assert_eq!(reader::operand(&word), Some(shortest), "{word}");
            }
        }
    }

    #[test]
    fn all_signs_and_cases_come() {
        let mut random = Random::new(3);
        let words: Vec<String> = (0..60_000).map(|i| number(&mut random, [0, 0xabc, -0xabc][i % 3])).collect();
        for word in ["0", "-0", "+0", "2748", "+2748", "0xabc", "0XABC", "-0xaBc", "#X-ABC", "#x+abc", "#xabc"] {
            assert!(words.iter().any(|w| w == word), "{word}");
        }
        for start in ["0b1", "0B1", "#b1", "#B-1", "#o5", "#O-5", "#d2", "#D+2", "-02748", "0x0"] {
            assert!(words.iter().any(|word| word.starts_with(start)), "{start}");
        }
    }
}
