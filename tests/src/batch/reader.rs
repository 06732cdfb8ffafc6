//! Reads words as numbers, by the rules of docs/API.md.

use super::text::negated;
use crate::spellings::shortest;

/// The most hexadecimal digits of an operand.
pub const MOST_DIGITS: usize = 8192;

/// A sign, a base and digits of that base, at least one.
struct Numeral<'a> {
    negative: bool,
    base: u32,
    digits: &'a str,
}

/// A number from -2^63 to 2^63 - 1.
pub fn number(word: &str) -> Option<i64> {
    let numeral = numeral(word)?;
    let magnitude = i128::try_from(magnitude(&numeral)?).ok()?;
    i64::try_from(if numeral.negative { -magnitude } else { magnitude }).ok()
}

/// A width or a code. A negative number is neither, and cannot be read there (tests/command.md).
pub fn unsigned(word: &str) -> Option<u64> {
    u64::try_from(number(word)?).ok()
}

/// An operand of a bitwise operation, in its shortest form, which can be longer than the calls accept.
pub fn operand(word: &str) -> Option<Vec<u32>> {
    let numeral = numeral(word)?;
    if numeral.base == 16 {
        return (numeral.digits.len() <= MOST_DIGITS).then(|| limbs(numeral.negative, hexadecimal(numeral.digits)));
    }
    let magnitude = u64::try_from(magnitude(&numeral)?).ok()?;
    Some(limbs(numeral.negative, vec![magnitude as u32, (magnitude >> 32) as u32]))
}

/// A sign, `0x` or `0b` or nothing, and digits; or `#` with a letter, a sign, and digits.
fn numeral(word: &str) -> Option<Numeral<'_>> {
    let (base, negative, digits) = match word.strip_prefix('#') {
        Some(rest) => {
            let base = match rest.chars().next()?.to_ascii_lowercase() {
                'x' => 16,
                'b' => 2,
                'o' => 8,
                'd' => 10,
                _ => return None,
            };
            let (negative, digits) = sign(&rest[1..]);
            (base, negative, digits)
        }
        None => {
            let (negative, rest) = sign(word);
            let (base, digits) = match rest.as_bytes() {
                [b'0', b'x' | b'X', ..] => (16, &rest[2..]),
                [b'0', b'b' | b'B', ..] => (2, &rest[2..]),
                _ => (10, rest),
            };
            (base, negative, digits)
        }
    };
    let good = !digits.is_empty() && digits.chars().all(|digit| digit.is_digit(base));
    good.then_some(Numeral { negative, base, digits })
}

/// Whether there is a minus in front, and what follows the sign.
fn sign(text: &str) -> (bool, &str) {
    match text.as_bytes().first() {
        Some(b'-') => (true, &text[1..]),
        Some(b'+') => (false, &text[1..]),
        _ => (false, text),
    }
}

/// The absolute value, if it is below 2^128.
fn magnitude(numeral: &Numeral) -> Option<u128> {
    let base = u128::from(numeral.base);
    numeral.digits.chars().try_fold(0u128, |sum, digit| {
        let digit = digit.to_digit(numeral.base).expect("a digit of the base");
        sum.checked_mul(base)?.checked_add(u128::from(digit))
    })
}

/// Hexadecimal digits as limbs, eight to a limb from the right.
fn hexadecimal(digits: &str) -> Vec<u32> {
    let limb = |eight: &[u8]| {
        let digit = |&byte: &u8| char::from(byte).to_digit(16).expect("a hexadecimal digit");
        eight.iter().fold(0, |sum, byte| 16 * sum + digit(byte))
    };
    digits.as_bytes().rchunks(8).map(limb).collect()
}

/// The shortest form of the integer with that sign and absolute value.
fn limbs(negative: bool, mut magnitude: Vec<u32>) -> Vec<u32> {
    magnitude.push(0);
    let limbs = if negative { negated(&magnitude) } else { magnitude };
    shortest(&limbs).to_vec()
}

#[cfg(test)]
mod tests {
    use super::*;
    use crate::reference::integer::Integer;

    #[test]
    fn notations() {
        for word in ["-31", "-0x1f", "-0X1F", "-0b11111", "-0B011111", "#x-1f", "#X-1F", "#b-11111", "#o-37", "#d-31"] {
            assert_eq!(number(word), Some(-31), "{word}");
        }
        for word in ["31", "+31", "0031", "+0x1f", "#x1f", "#x+1F", "#O37", "#D+31", "#x0001f"] {
            assert_eq!(number(word), Some(31), "{word}");
        }
        assert_eq!(number("#x0b1"), Some(0xb1));
    }

    #[test]
    fn no_numbers() {
        let words =
            ["", "-", "+", "0x", "-0b", "#", "#x", "#x-", "#e1", "0o7", "1f", "0b2", "#o8", "#da", "--1", "+-1"];
        for word in words.into_iter().chain(["-#x1", "0x-1", "#x0x1", "##x1", "1.", "1,000", "é", "#é", "-é", "x"]) {
            assert_eq!((number(word), operand(word)), (None, None), "{word}");
        }
    }

    #[test]
    fn ends() {
        assert_eq!(number("-9223372036854775808"), Some(i64::MIN));
        assert_eq!(number("#x7fffffffffffffff"), Some(i64::MAX));
        assert_eq!(number("9223372036854775808"), None);
        assert_eq!(number("-0x8000000000000001"), None);
        assert_eq!(number(&"9".repeat(100)), None);
        assert_eq!(number(&format!("{}7", "0".repeat(100))), Some(7));
        assert_eq!((unsigned("-1"), unsigned("-0")), (None, Some(0)));
        assert_eq!(operand("18446744073709551615"), Some(vec![u32::MAX, u32::MAX, 0]));
        assert_eq!(operand("#b-1").as_deref(), Some(&[u32::MAX][..]));
        assert_eq!(operand("18446744073709551616"), None);
        assert_eq!(operand("#o2000000000000000000000"), None);
    }

    #[test]
    fn long_operands() {
        let (zeros, greatest) = ("0".repeat(8191), format!("0x7{}", "f".repeat(8191)));
        assert_eq!(operand(&greatest).map(|limbs| limbs.len()), Some(1024));
        assert_eq!(operand(&format!("-0x8{zeros}")).map(|limbs| limbs.len()), Some(1024));
        assert_eq!(operand(&format!("#x8{zeros}")).map(|limbs| limbs.len()), Some(1025));
        assert_eq!(operand(&format!("0x{zeros}1")), Some(vec![1]));
        assert_eq!(operand(&format!("0x{zeros}01")), None);
    }

    #[test]
    fn shortest_forms() {
        for n in
            [0, 1, -1, 1 << 31, -1 << 31, (1 << 31) - 1, -(1 << 31) - 1, 1 << 63, -1 << 63, -(1 << 63) - 1, -1 << 64]
        {
            let word = format!("{}{:#x}", if n < 0 { "-" } else { "" }, i128::unsigned_abs(n));
            assert_eq!(operand(&word), Some(Integer::from_i128(n).to_limbs()), "{word}");
        }
    }
}
