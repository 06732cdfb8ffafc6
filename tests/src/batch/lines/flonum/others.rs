//! Zeros, infinities and NaNs without a sign, and words that are no numbers.

use super::exponent;
use crate::random::Random;

pub fn unsigned(random: &mut Random) -> String {
    match random.below(8) {
        0..=2 => zero(random),
        3 | 4 => random.choose(&["inf", "inf", "inf.0"]).to_string(),
        _ => random.choose(&["nan", "nan", "nan.0"]).to_string(),
    }
}

fn zero(random: &mut Random) -> String {
    let word = random.choose(&["0", "0.0", ".0", "0.", "000", "0.000000", "0x0p+0", "0x0.00p+0"]);
    let n = random.between(-1500, 1500);
    match random.below(3) {
        0 if !word.contains('x') => word.to_string() + &exponent(random, 'e', n),
        _ => word.to_string(),
    }
}

/// Words that begin as numbers do, words that Rust, C or Scheme reads as numbers, and integers as `fx` reads them.
const MALFORMED: [&str; 56] = [
    "x", "-", "+", ".", "-.", "+.", "..", "e5", "-e5", ".e5", "1e", "1e+", "1e-", "1e5.", "1e.5", "1e5e5", "1.5.2",
    "1..5", "1,5", "1_000", "--1", "+-1", "-+1", "1-", "1+1", "1f", "1.0f", "1d5", "1p5", "0x", "0x.", "0xp1", "0x.p1",
    "0x1p", "0x1p+", "0x1p-", "0x1pf", "0x1.8p1.", "0x1.8.p1", "0x1g", "0x-1p1", "-0x", "infinity", "infinite", "in",
    "inf.", "inf.00", "nano", "na", "nan.", "nan(1)", "#x1f", "#b1", "#d1.5", "1/2", "snan",
];

pub fn malformed(random: &mut Random) -> String {
    random.choose(&MALFORMED).to_string()
}

#[cfg(test)]
mod tests {
    use super::*;
    use crate::batch::flonum::spelling::{spelling, Trouble};

    #[test]
    fn no_numbers() {
        for word in MALFORMED {
            assert_eq!(spelling(word), Err(Trouble::Malformed), "{word}");
        }
    }

    #[test]
    fn numbers() {
        let mut random = Random::new(1);
        for _ in 0..1_000 {
            let word = unsigned(&mut random);
            assert!(spelling(&word).is_ok(), "{word}");
        }
    }
}
