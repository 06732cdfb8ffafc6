//! Results as text: decimal and hexadecimal, or hexadecimal alone beyond 64 bits.

/// A number, in decimal and in hexadecimal.
pub fn number(n: i64) -> String {
    let sign = if n < 0 { "-" } else { "" };
    format!("{n} {sign}{:#x}", n.unsigned_abs())
}

/// An integer in its shortest form. More than two limbs are more than 64 bits.
pub fn integer(limbs: &[u32]) -> String {
    match *limbs {
        [low] => number(i64::from(low as i32)),
        [low, high] => number((i64::from(high as i32) << 32) | i64::from(low)),
        _ => {
            let (negative, digits) = absolute(limbs);
            format!("{}0x{digits}", if negative { "-" } else { "" })
        }
    }
}

/// Whether the integer is negative, and its absolute value in hexadecimal, without leading zeros.
pub fn absolute(limbs: &[u32]) -> (bool, String) {
    let negative = limbs.last().is_some_and(|last| last >> 31 == 1);
    let magnitude = if negative { negated(limbs) } else { limbs.to_vec() };
    let digits: String = magnitude.iter().rev().map(|limb| format!("{limb:08x}")).collect();
    let digits = digits.trim_start_matches('0');
    (negative, if digits.is_empty() { "0" } else { digits }.to_string())
}

/// 2^(32 n) minus the integer, for n limbs.
pub fn negated(limbs: &[u32]) -> Vec<u32> {
    let mut carry = true;
    let negate = |&limb: &u32| {
        let (sum, over) = (!limb).overflowing_add(u32::from(carry));
        carry = over;
        sum
    };
    limbs.iter().map(negate).collect()
}

#[cfg(test)]
mod tests {
    use super::*;
    use crate::reference::integer::Integer;

    #[test]
    fn numbers() {
        assert_eq!(number(0), "0 0x0");
        assert_eq!(number(-3), "-3 -0x3");
        assert_eq!(number(i64::MIN), "-9223372036854775808 -0x8000000000000000");
        assert_eq!(number(i64::MAX), "9223372036854775807 0x7fffffffffffffff");
    }

    #[test]
    fn integers() {
        for n in [0, 1, -1, 255, -256, 1 << 31, -1 << 31, (1 << 32) - 1, -1 << 32, i64::MAX, i64::MIN] {
            assert_eq!(integer(&Integer::from_i128(i128::from(n)).to_limbs()), number(n));
        }
        for (n, text) in [
            (1i128 << 63, "0x8000000000000000"),
            (-(1 << 63) - 1, "-0x8000000000000001"),
            (1 << 64, "0x10000000000000000"),
            (-1 << 95, "-0x800000000000000000000000"),
            (-1 << 96, "-0x1000000000000000000000000"),
            ((1 << 95) - 1, "0x7fffffffffffffffffffffff"),
        ] {
            assert_eq!(integer(&Integer::from_i128(n).to_limbs()), text);
        }
    }
}
