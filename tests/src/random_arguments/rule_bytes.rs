//! Random bytes that are hardly ever a rule.

use super::rule::accepted;
use crate::random::Random;

/// Bytes that are hardly ever a rule: of any values, of the values that rules are made of, or the parts of rules.
pub fn any_bytes(random: &mut Random) -> Vec<u8> {
    match random.below(4) {
        0 => {
            let length = any_length(random);
            (0..length).map(|_| random.next_u32() as u8).collect()
        }
        1 => {
            let length = any_length(random);
            std::iter::once(24).chain((1..length.max(1)).map(|_| telling_byte(random))).collect()
        }
        2 => spliced(random),
        _ => repeated(random),
    }
}

/// Few bytes most often, up to 5,000 now and then.
fn any_length(random: &mut Random) -> usize {
    let most = random.choose(&[8, 40, 200, 5_001]);
    random.below(most) as usize
}

/// A tag, a code, a count, a small number, or a group that is followed by another.
fn telling_byte(random: &mut Random) -> u8 {
    match random.below(8) {
        0..=2 => random.below(3) as u8,
        3 => random.choose(&[0x80, 0xFF, 0x81, 0xC0]),
        4 | 5 => random.below(43) as u8,
        6 => random.choose(&[26, 27, 28, 2]),
        _ => random.next_u32() as u8,
    }
}

/// The start of one rule, and the rest of another.
fn spliced(random: &mut Random) -> Vec<u8> {
    let [mut first, second] = [0; 2].map(|_| accepted(random).bytes);
    first.truncate(random.below(first.len() as u64 + 1) as usize);
    first.extend(&second[random.below(second.len() as u64 + 1) as usize..]);
    first
}

/// A rule in which some bytes stand again and again.
fn repeated(random: &mut Random) -> Vec<u8> {
    let bytes = accepted(random).bytes;
    let begin = random.below(bytes.len() as u64) as usize;
    let end = begin + random.below((bytes.len() - begin).min(12) as u64 + 1) as usize;
    let most = random.choose(&[3, 40, 5_000 / (end - begin).max(1) as u64]);
    let times = random.below(most.max(1)) as usize;
    [&bytes[..end], &bytes[begin..end].repeat(times), &bytes[end..]].concat()
}

#[cfg(test)]
mod tests {
    use super::*;
    use crate::reference::rule::MOST_BYTES;

    #[test]
    fn any_bytes_are_long_and_short() {
        let mut random = Random::new(44);
        let lengths: Vec<usize> = (0..3_000).map(|_| any_bytes(&mut random).len()).collect();
        assert!(lengths.iter().any(|&length| length > MOST_BYTES));
        assert!(lengths.iter().filter(|&&length| length < 20).count() > 300);
        assert!(lengths.contains(&0));
    }
}
