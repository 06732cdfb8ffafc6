//! Random settings, records, bytes, cuttings and joins of a fold.

use super::fixnum::arguments;
use crate::fixnum_arguments::{beyond, nearest_accepted, random_fixnum, refused_widths};
use crate::random::Random;
use crate::reference::fold::{Fold, ZERO};

/// Settings at that width, legal or not, most often near a limit: the arguments of code 40.
pub fn settings(random: &mut Random, width: u64) -> Fold {
    let [accumulator, start, end, count] = arguments(random, nearest_accepted(width), 40);
    Fold { width, start, end, count, accumulator }
}

/// Settings at that width that opening accepts.
pub fn accepted(random: &mut Random, width: u64) -> Fold {
    loop {
        let settings = settings(random, width);
        if settings.is_open() {
            return settings;
        }
    }
}

/// Settings at that width, or now and then at a refused one.
pub fn settings_or_width(random: &mut Random, width: u64) -> Fold {
    let width = if random.one_in(12) { random.choose(&refused_widths()) } else { width };
    settings(random, width)
}

/// What the caller's record may hold: a fold, nothing, or any numbers.
pub fn record(random: &mut Random, width: u64) -> Fold {
    match random.below(8) {
        0 => ZERO,
        1 => {
            let [start, end, count, accumulator] = [0; 4].map(|_| random.next_i64());
            Fold { width: random.next_u64(), start, end, count, accumulator }
        }
        2..=4 => settings_or_width(random, width),
        _ => accepted(random, width),
    }
}

/// Up to 40 bytes, seldom more, often of one kind.
pub fn bytes(random: &mut Random) -> Vec<u8> {
    let length = match random.below(64) {
        0 => random.choose(&[255, 256, 257]),
        1..=8 => 0,
        9..=31 => 1 + random.below(4),
        _ => random.below(41),
    };
    let kind = random.below(8);
    (0..length).map(|_| byte(random, kind)).collect()
}

fn byte(random: &mut Random, kind: u64) -> u8 {
    match kind {
        0 => 0,
        1 => 0xFF,
        2 => random.choose(&[0x7F, 0x80, 0x81]),
        3 => 1 << random.below(8),
        _ => random.next_u32() as u8,
    }
}

/// The bytes in pieces, some of them empty: at random places, or each byte alone.
pub fn cutting<'a>(random: &mut Random, bytes: &'a [u8]) -> Vec<&'a [u8]> {
    let mut places: Vec<usize> = if random.one_in(8) && bytes.len() <= 300 {
        (0..=bytes.len()).collect()
    } else {
        (0..random.below(7)).map(|_| random.below(bytes.len() as u64 + 1) as usize).collect()
    };
    if random.one_in(4) {
        places.extend([0, bytes.len()]);
    }
    places.sort_unstable();
    places.push(bytes.len());
    let begins = std::iter::once(0).chain(places.iter().copied());
    begins.zip(&places).map(|(begin, &end)| &bytes[begin..end]).collect()
}

/// The piece of a join: a fixnum, most often.
pub fn piece(random: &mut Random, width: u64) -> i64 {
    let width = nearest_accepted(width);
    match random.below(8) {
        0 => random.choose(&beyond(width)),
        1 => random.next_i64(),
        _ => random_fixnum(random, width),
    }
}

/// The number of bytes of a join: few, any number of any size, or as many as there can be.
pub fn join_length(random: &mut Random) -> u64 {
    match random.below(8) {
        0 => 0,
        1 => u64::MAX - random.below(70),
        2..=4 => random.below(200),
        _ => random.next_u64() >> random.below(64),
    }
}

#[cfg(test)]
mod tests {
    use super::*;
    use crate::fixnum_arguments::random_width;

    /// Each cutting holds the bytes in their order, and some cuttings have an empty piece at either end and between.
    #[test]
    fn cuttings() {
        let mut random = Random::new(17);
        let mut empty = [0; 3];
        for _ in 0..2_000 {
            let bytes = bytes(&mut random);
            let pieces = cutting(&mut random, &bytes);
            assert_eq!(pieces.concat(), bytes);
            let last = pieces.len() - 1;
            for (i, _) in pieces.iter().enumerate().filter(|(_, piece)| piece.is_empty()) {
                empty[if i == 0 { 0 } else { 1 + usize::from(i == last) }] += 1;
            }
        }
        assert!(empty.iter().all(|&times| times > 100), "{empty:?}");
    }

    /// Of a hundred records many are open, and many are not.
    #[test]
    fn records_of_both_kinds() {
        let mut random = Random::new(18);
        let open = (0..2_000).filter(|_| {
            let width = random_width(&mut random);
            record(&mut random, width).is_open()
        });
        assert!((800..1_600).contains(&open.count()));
    }
}
