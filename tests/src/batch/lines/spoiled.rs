//! Lines with words that cannot be read, or too few words.

use crate::random::Random;

/// Words that are no numbers, numbers beyond 64 bits, and words that stand in other places.
const WORDS: [&str; 36] = [
    "x",
    "-",
    "+",
    "#",
    "0x",
    "0b",
    "-0x",
    "#x",
    "#b-",
    "#o+",
    "#d",
    "1f",
    "0x1g",
    "0b12",
    "#b2",
    "#o8",
    "#da",
    "#e1",
    "0o7",
    "--1",
    "+-1",
    "-#x1",
    "0x-1",
    "##x1",
    "#x#x1",
    "1.5",
    "1,000",
    "1e3",
    "9223372036854775808",
    "-0x8000000000000001",
    "18446744073709551616",
    "fx",
    "bitwise",
    "fxand",
    "FXNOT",
    "bitwise-and?",
];
/// Characters that numbers and names are made of, and some that they are not.
const CHARACTERS: &[u8] = b"0123456789abcdefABCDEFxXoOdDpPin#+-?*=<>/.,_g";

/// Replaces words, changes a character, or takes words away. The line may still be readable.
pub fn spoil(random: &mut Random, words: &mut Vec<String>) {
    match random.below(16) {
        0 => words.truncate(1 + random.below(3) as usize),
        1..=6 => {
            for _ in 0..1 + random.below(2) {
                let place = random.below(words.len() as u64) as usize;
                words[place] = random.choose(&WORDS).to_string();
            }
        }
        _ => {
            let place = random.below(words.len() as u64) as usize;
            change(random, &mut words[place]);
        }
    }
}

/// Replaces, inserts or removes one character, near the start most often.
fn change(random: &mut Random, word: &mut String) {
    let most = if random.one_in(4) { word.len() } else { word.len().min(4) };
    let place = random.below(most as u64) as usize;
    let character = char::from(random.choose(CHARACTERS)).to_string();
    match random.below(4) {
        0 if word.len() > 1 => {
            word.remove(place);
        }
        1 => word.insert_str(place, &character),
        2 => word.push_str(&character),
        _ => word.replace_range(place..=place, &character),
    }
}

#[cfg(test)]
mod tests {
    use super::*;

    #[test]
    fn every_place_is_spoiled() {
        let mut random = Random::new(1);
        let (whole, mut changed) = (["fx", "24", "fxif", "1", "2", "3"].map(String::from).to_vec(), [false; 6]);
        for _ in 0..1000 {
            let mut words = whole.clone();
            spoil(&mut random, &mut words);
            assert!(!words.is_empty() && words.iter().all(|word| !word.is_empty() && !word.contains(' ')));
            for (place, word) in words.iter().enumerate() {
                changed[place] |= *word != whole[place];
            }
        }
        assert_eq!(changed, [true; 6]);
    }
}
