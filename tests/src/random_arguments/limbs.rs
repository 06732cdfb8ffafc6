//! Random operands, positions, distances and counts of limb calls.

use crate::operation::Operation::{self, *};
use crate::random::Random;
use crate::reference::limbs::MOST_LIMBS;
use crate::spellings::{padded, shortest};

/// Limbs with bits at their ends.
pub const LIMBS: [u32; 12] = [
    0,
    1,
    2,
    0xFFFF_FFFF,
    0xFFFF_FFFE,
    0x7FFF_FFFF,
    0x8000_0000,
    0x8000_0001,
    0x5555_5555,
    0xAAAA_AAAA,
    0x0001_0000,
    0xFFFF_0000,
];

/// An operand of that operation, refused ones among them; most have a few limbs. For trim about half are padded.
pub fn operand_of(random: &mut Random, operation: Operation) -> Vec<u32> {
    match operation {
        Trim => any_spelling(random),
        _ => operand(random),
    }
}

/// An operand, refused ones among them; most have a few limbs, and one in twelve is padded.
pub fn operand(random: &mut Random) -> Vec<u32> {
    let limbs = shortest(&drawn(random)).to_vec();
    if random.one_in(12) {
        padding(random, &limbs)
    } else {
        limbs
    }
}

/// An operand that every call accepts: 1 to 1,024 limbs, and the shortest form.
pub fn accepted_operand(random: &mut Random) -> Vec<u32> {
    loop {
        let limbs = shortest(&drawn(random)).to_vec();
        if (1..=MOST_LIMBS).contains(&limbs.len()) {
            return limbs;
        }
    }
}

/// Limbs of any number, about half of them padded.
pub fn any_spelling(random: &mut Random) -> Vec<u32> {
    let limbs = drawn(random);
    if random.below(5) < 2 {
        padding(random, &limbs)
    } else {
        limbs
    }
}

/// The same integer in more limbs; at times in 1,024 or about as many. No limb stays none.
pub fn padding(random: &mut Random, limbs: &[u32]) -> Vec<u32> {
    let least = limbs.len() + 1;
    let length = match random.below(40) {
        _ if limbs.is_empty() => 0,
        0 => MOST_LIMBS.max(least),
        1 => (MOST_LIMBS + 1).max(least),
        2 => least + random.below(MOST_LIMBS as u64) as usize,
        _ => least + random.below(3) as usize,
    };
    padded(limbs, length)
}

/// Limbs of any number; some have more than their integer needs.
fn drawn(random: &mut Random) -> Vec<u32> {
    let length = match random.below(1000) {
        0..=4 => 0,
        5..=9 => 1025 + random.below(4),
        10..=19 => 1020 + random.below(5),
        20..=29 => 1 + random.below(1024),
        30..=129 => 5 + random.below(36),
        _ => 1 + random.below(4),
    };
    filled(random, length as usize)
}

/// Random limbs, limbs with bits at their ends, or both.
fn filled(random: &mut Random, length: usize) -> Vec<u32> {
    let style = random.below(4);
    (0..length)
        .map(|_| match style {
            0 => random.next_u32(),
            1 => random.choose(&LIMBS),
            2 => random.choose(&[0, u32::MAX]),
            _ if random.one_in(2) => random.next_u32() >> random.below(32),
            _ => random.choose(&LIMBS),
        })
        .collect()
}

/// A position, most often within an operand of that many limbs or next to it.
pub fn position(random: &mut Random, length: usize) -> i64 {
    let near = 32 * length as i64 + 40;
    match random.below(64) {
        0 => random.next_i64() >> random.below(64),
        1 => random.choose(&[i64::MIN, -1, 32_768, 1 << 32, i64::MAX]),
        2 | 3 => random.between(0, 32_768),
        4 => random.choose(&[32_735, 32_736, 32_766, 32_767]),
        5..=20 => 32 * random.between(0, length as i64 + 1) + random.between(-1, 1),
        _ => random.between(0, near),
    }
}

/// Start and end, most often in order.
pub fn field(random: &mut Random, length: usize) -> (i64, i64) {
    let (start, end) = (position(random, length), position(random, length));
    if start > end && !random.one_in(16) {
        (end, start)
    } else {
        (start, end)
    }
}

/// A rotation count for a field of f bits, which may be any number.
pub fn count(random: &mut Random, f: i64) -> i64 {
    match random.below(16) {
        0 => random.choose(&[i64::MIN, -1, 0, f, f.wrapping_mul(2), i64::MAX]),
        1 => random.next_i64() >> random.below(64),
        2 | 3 => random.next_i64() & i64::MAX,
        _ if f > 0 => random.below(f as u64) as i64,
        _ => random.between(0, 40),
    }
}

/// A distance in either direction.
pub fn distance(random: &mut Random, length: usize) -> i64 {
    match random.below(64) {
        0 => random.choose(&[i64::MIN, i64::MIN + 1, i64::MAX]),
        1 => random.next_i64() >> random.below(64),
        2 | 3 => random.between(-33_000, 33_000),
        4 | 5 => 32_767 - 32 * length as i64 + random.between(-2, 33),
        6..=15 => 32 * random.between(-3, 3) + random.between(-1, 1),
        _ => random.between(-32 * length as i64 - 40, 70),
    }
}

/// The numbers of a call whose first operand has that many limbs.
pub fn numbers(random: &mut Random, operation: Operation, length: usize) -> [i64; 3] {
    match operation {
        CopyBit if random.one_in(8) => [position(random, length), random.between(-1, 3), 0],
        CopyBit => [position(random, length), random.between(0, 1), 0],
        Shift => [distance(random, length), 0, 0],
        ShiftLeft | ShiftRight => {
            let distance = distance(random, length);
            [if random.one_in(8) { distance } else { distance.saturating_abs() }, 0, 0]
        }
        Rotate => {
            let (start, end) = field(random, length);
            [start, end, count(random, end.wrapping_sub(start))]
        }
        _ => {
            let (start, end) = field(random, length);
            [start, end, 0]
        }
    }
}
