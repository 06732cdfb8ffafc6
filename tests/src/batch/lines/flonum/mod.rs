//! The words of `fl` lines.
//!
//! - `decimal`: decimal numbers
//! - `hexadecimal`: hexadecimal numbers
//! - `others`: zeros, infinities and NaNs, and words that are no numbers

mod decimal;
mod hexadecimal;
mod others;

use super::argument;
use crate::batch::flonum::operation::FLONUM_NAMES;
use crate::batch::numeral::number;
use crate::flonum_call::FlonumOperation;
use crate::random::Random;
use crate::random_arguments::flonum::conversion;

/// The most numbers of flextremes: two more than it takes.
const MOST_NUMBERS: u64 = 6;
/// The most words of a line, by which the tally counts.
const MOST_WORDS: usize = 2 + MOST_NUMBERS as usize;

pub fn words(random: &mut Random) -> Vec<String> {
    let (name, operation) = operation(random);
    let mut words = vec!["fl".to_string(), name.to_string()];
    match operation {
        FlonumOperation::FixnumToFlonum => words.extend(integers(random)),
        FlonumOperation::Extremes => words.extend(several(random)),
        _ => words.push(flonum(random)),
    }
    if words.len() < MOST_WORDS && random.one_in(60) {
        words.push(flonum(random));
    }
    if random.one_in(60) {
        words.pop();
    }
    words
}

/// flabs and flextremes show the number that was read, and come more often than the others.
fn operation(random: &mut Random) -> (&'static str, FlonumOperation) {
    match random.below(16) {
        0..=4 => ("flabs", FlonumOperation::Abs),
        5..=7 => ("flextremes", FlonumOperation::Extremes),
        _ => random.choose(&FLONUM_NAMES),
    }
}

/// The numbers of flextremes. Where they are too many, the last is often none: it is named before the call is refused.
fn several(random: &mut Random) -> Vec<String> {
    let count = match random.below(8) {
        0 => random.below(MOST_NUMBERS + 1),
        1..=3 => 1,
        4..=6 => 2,
        _ => 3 + random.below(2),
    };
    let mut words: Vec<String> = (0..count).map(|_| flonum(random)).collect();
    if count > 4 && random.one_in(3) {
        words.pop();
        words.push(others::malformed(random));
    }
    words
}

/// The width and the integer of fixnum->flonum.
fn integers(random: &mut Random) -> [String; 2] {
    let call = conversion(random);
    let width = if random.one_in(100) { -i128::from(call.width) } else { i128::from(call.width) };
    let n = if random.one_in(100) { flonum(random) } else { argument(random, call.fixnum) };
    [number(random, width), n]
}

/// A number in any notation; at times a word that is none.
fn flonum(random: &mut Random) -> String {
    let sign = match random.below(8) {
        0..=2 => "-",
        3 => "+",
        _ => "",
    };
    let unsigned = match random.below(32) {
        0..=16 => decimal::unsigned(random),
        17..=26 => hexadecimal::unsigned(random),
        27..=30 => others::unsigned(random),
        _ => return others::malformed(random),
    };
    format!("{sign}{unsigned}")
}

/// Digits with a point in a random place, or none, at times with zeros around them; and by how many places the number
/// is smaller than the digits without a point.
fn pointed(random: &mut Random, digits: &str) -> (String, i64) {
    let mut zeros = || if random.one_in(8) { "0".repeat(1 + random.below(4) as usize) } else { String::new() };
    let (leading, trailing) = (zeros(), zeros());
    let digits = format!("{leading}{digits}{trailing}");
    let behind = match random.below(4) {
        0 => 0,
        1 => digits.len() - 1,
        _ => random.below(digits.len() as u64 + 1) as usize,
    };
    let (whole, fraction) = digits.split_at(digits.len() - behind);
    let point = if behind == 0 && !random.one_in(8) { "" } else { "." };
    (format!("{whole}{point}{fraction}"), behind as i64 - trailing.len() as i64)
}

/// An exponent behind that letter: with a sign where it needs one and at times where it does not, at times with zeros.
fn exponent(random: &mut Random, letter: char, n: i64) -> String {
    let sign = match n {
        ..=-1 => "-",
        0 if random.one_in(4) => "-",
        _ if random.one_in(3) => "+",
        _ => "",
    };
    let zeros = if random.one_in(8) { &"000"[..1 + random.below(3) as usize] } else { "" };
    format!("{letter}{sign}{zeros}{}", n.abs())
}

#[cfg(test)]
mod tests {
    use super::*;
    use crate::batch::answer::expected;
    use crate::batch::flonum::cases::{all, cases};
    use crate::batch::flonum::spelling::spelling;
    use crate::batch::flonum::value::value;

    /// One line in two thousand, at least, shows each case.
    #[test]
    fn every_case_comes_often() {
        let mut random = Random::new(1);
        let mut seen = Vec::new();
        for _ in 0..20_000 {
            let line = words(&mut random).join(" ");
            seen.extend(cases(&line, &expected(&line)));
        }
        for case in all() {
            let count = seen.iter().filter(|&&name| name == case).count();
            assert!(count >= 10, "{case} came {count} times");
        }
    }

    #[test]
    fn no_line_has_more_words() {
        let mut random = Random::new(3);
        let most = (0..50_000).map(|_| words(&mut random).len()).max();
        assert_eq!(most, Some(MOST_WORDS));
    }

    #[test]
    fn points_do_not_change_the_number() {
        let mut random = Random::new(2);
        for _ in 0..2_000 {
            let (mantissa, places) = pointed(&mut random, "1203");
            let word = format!("{mantissa}e{places}");
            let number = spelling(&word).map(|spelling| value(&spelling));
            assert_eq!(number, Ok(1203f64.to_bits()), "{word}");
        }
    }
}
