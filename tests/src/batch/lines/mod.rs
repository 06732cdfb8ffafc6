//! Random lines of `ql batch`, legal and not, most of them near a limit.

mod bitwise;
mod fixnum;
mod flonum;
mod spoiled;

use super::expected::LONGEST_LINE;
use super::numeral::number;
use crate::random::Random;

pub fn line(random: &mut Random) -> String {
    if random.one_in(100) {
        return random.choose(&["", "", " ", "\t", " \t  "]).to_string();
    }
    // The command takes more time for a line of `fl` than for another.
    let mut words = match random.below(64) {
        0 | 1 => flonum::words(random),
        2..=32 => fixnum::words(random),
        _ => bitwise::words(random),
    };
    if random.one_in(12) {
        spoiled::spoil(random, &mut words);
    }
    let mut line = joined(random, &words);
    if random.one_in(10_000) && line.len() < LONGEST_LINE {
        // The longest line, or one byte more.
        let length = LONGEST_LINE + random.below(2) as usize;
        line += &" ".repeat(length - line.len());
    }
    line
}

/// A number as a word; at times one just beyond 64 bits in its place.
fn argument(random: &mut Random, n: i64) -> String {
    let n = if random.one_in(200) { random.choose(&[-(1 << 63) - 1, 1 << 63]) } else { i128::from(n) };
    number(random, n)
}

/// The words with blanks or tabs between them, and at times around them.
fn joined(random: &mut Random, words: &[String]) -> String {
    let plain = !random.one_in(4);
    let mut blanks = |least: usize| match random.below(8) {
        _ if plain => " "[..least].to_string(),
        0 => "\t".to_string(),
        1 => "  ".to_string(),
        2 => " \t\t ".to_string(),
        _ => " "[..least].to_string(),
    };
    let mut line = blanks(0);
    for (i, word) in words.iter().enumerate() {
        line += &blanks(usize::from(i > 0));
        line += word;
    }
    line + &blanks(0)
}

#[cfg(test)]
mod tests {
    use super::super::answer::expected;
    use super::super::expected::Expected;
    use super::*;

    #[test]
    fn words_stay_apart() {
        let mut random = Random::new(1);
        let words = ["a", "bc", "d"].map(String::from);
        for _ in 0..1000 {
            let line = joined(&mut random, &words);
            assert_eq!(line.split_ascii_whitespace().collect::<Vec<_>>(), words, "{line:?}");
        }
    }

    #[test]
    fn lines_are_lines() {
        let mut random = Random::new(2);
        assert!((0..20_000).all(|_| !line(&mut random).contains(['\n', '\r'])));
    }

    #[test]
    fn the_seed_decides() {
        let lines = |seed| {
            let mut random = Random::new(seed);
            (0..1000).map(|_| line(&mut random)).collect::<Vec<_>>()
        };
        assert_eq!(lines(3), lines(3));
        assert_ne!(lines(3), lines(4));
    }

    #[test]
    fn most_are_done() {
        let mut random = Random::new(4);
        let is_done = |line: String| matches!(expected(&line), Expected::Done(..));
        let done = (0..10_000).filter(|_| is_done(line(&mut random))).count();
        assert!((6_000..9_500).contains(&done), "{done} of 10,000");
    }
}
