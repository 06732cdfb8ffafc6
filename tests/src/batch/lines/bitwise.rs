//! The words of `bitwise` lines.

use super::argument;
use crate::batch::numeral::{hexadecimal, integer, number};
use crate::batch::reader::MOST_DIGITS;
use crate::operation::BITWISE_NAMES;
use crate::random::Random;
use crate::random_arguments::limbs::{numbers, operand};

pub fn words(random: &mut Random) -> Vec<String> {
    let (name, operation) = random.choose(&BITWISE_NAMES);
    let (x, length) = operand_word(random);
    let numbers = numbers(random, operation, length);
    let mut words = vec!["bitwise".to_string(), name.to_string(), x];
    for i in 1..operation.operands() + operation.numbers() {
        let word = if operation.is_number(i) { argument(random, numbers[i - 1]) } else { operand_word(random).0 };
        words.push(word);
    }
    if random.one_in(40) {
        change_count(random, &mut words);
    }
    words
}

/// An operand, and about how many limbs it has.
fn operand_word(random: &mut Random) -> (String, usize) {
    match random.below(400) {
        0 => return (longest(random), 1024),
        1 | 2 => return (around_64_bits(random), 2),
        _ => {}
    }
    let limbs = operand(random);
    (integer(random, &limbs), limbs.len())
}

/// An absolute value around 2^64, the limit of every base but hexadecimal.
fn around_64_bits(random: &mut Random) -> String {
    let magnitude = (1 << 64) + i128::from(random.between(-2, 1));
    let n = if random.one_in(2) { magnitude } else { -magnitude };
    number(random, n)
}

/// About as many digits as an operand can have: one less to one more, around the ends of 1,024 limbs.
fn longest(random: &mut Random) -> String {
    let count = MOST_DIGITS - 1 + random.below(3) as usize;
    let style = random.below(3);
    let mut digits = random.choose(&["1", "7", "8", "f"]).to_string();
    while digits.len() < count {
        digits.push(match style {
            0 => '0',
            1 => 'f',
            _ => char::from_digit(random.below(16) as u32, 16).expect("a digit"),
        });
    }
    if random.one_in(2) {
        digits.replace_range(count - 1.., "1");
    }
    let negative = random.one_in(2);
    hexadecimal(random, negative, &digits)
}

/// Zero to five arguments.
fn change_count(random: &mut Random, words: &mut Vec<String>) {
    let count = random.below(6) as usize;
    words.truncate(2 + count);
    while words.len() < 2 + count {
        let n = random.between(-9, 9);
        words.push(number(random, i128::from(n)));
    }
}

#[cfg(test)]
mod tests {
    use super::*;
    use crate::batch::reader;
    use crate::reference::limbs::MOST_LIMBS;

    #[test]
    fn longest_operands_lie_around_the_limits() {
        let mut random = Random::new(1);
        let lengths: Vec<Option<usize>> =
            (0..300).map(|_| reader::operand(&longest(&mut random)).map(|limbs| limbs.len())).collect();
        for length in [None, Some(MOST_LIMBS), Some(MOST_LIMBS + 1)] {
            assert!(lengths.contains(&length), "{length:?}");
        }
        assert!(lengths.iter().flatten().all(|length| (MOST_LIMBS..=MOST_LIMBS + 1).contains(length)));
    }

    #[test]
    fn counts_are_zero_to_five() {
        let mut random = Random::new(2);
        let mut seen = [false; 6];
        for _ in 0..200 {
            let mut words = words(&mut random);
            change_count(&mut random, &mut words);
            seen[words.len() - 2] = true;
        }
        assert_eq!(seen, [true; 6]);
    }
}
