//! Random flonums, as their bits, and random calls on them.

use crate::fixnum_arguments::{beyond, greatest, least, nearest_accepted, numbers, random_fixnum};
use crate::flonum_call::FlonumCall;
use crate::flonum_values::SPECIAL;
use crate::random::Random;
use crate::random_arguments::fixnum::width;
use crate::reference::flonum::conversion::nearest;
use crate::reference::flonum::{BIAS, FRACTION_BITS, HIDDEN, INFINITY, SIGN};

/// Any flonum: uniform bits, numbers about which a fraction can be asked, halves and their neighbours, NaNs, and those
/// that the rules name.
pub fn flonum(random: &mut Random) -> u64 {
    let sign = random.next_u64() & SIGN;
    match random.below(16) {
        0..=2 => random.next_u64(),
        3..=6 => sign | (exponent(random) << FRACTION_BITS) | fraction(random),
        7..=10 => sign | near(random, halves),
        11 => sign | near(random, wholes),
        12 => sign | nan(random),
        13 => sign | fraction(random),
        _ => sign ^ random.choose(&SPECIAL),
    }
}

/// Exponents from 1/8 to beyond the last fractions.
fn exponent(random: &mut Random) -> u64 {
    BIAS - 3 + random.below(59)
}

/// A fraction that ends in any number of zeros.
fn fraction(random: &mut Random) -> u64 {
    let zeros = if random.one_in(2) { 0 } else { random.below(FRACTION_BITS + 1) };
    (random.next_u64() % HIDDEN) >> zeros << zeros
}

fn nan(random: &mut Random) -> u64 {
    INFINITY | fraction(random).max(1)
}

/// One of these, or a neighbour of it.
fn near(random: &mut Random, numbers: fn(&mut Random) -> u64) -> u64 {
    let x = numbers(random);
    match random.below(4) {
        0 => x - 1,
        1 => x + 1,
        _ => x,
    }
}

/// k + 1/2 for a whole number k of any size below 2^52: an odd number of up to 53 bits, halved by its exponent.
fn halves(random: &mut Random) -> u64 {
    let odd = (random.next_u64() >> (11 + random.below(53))) | 1;
    nearest(odd) - HIDDEN
}

/// A whole number of any size from 1 up.
fn wholes(random: &mut Random) -> u64 {
    nearest((random.next_u64() >> random.below(64)).max(1))
}

/// fixnum->flonum, at an accepted width most often.
pub fn conversion(random: &mut Random) -> FlonumCall {
    let width = width(random);
    let accepted = nearest_accepted(width);
    let n = match random.below(16) {
        0 => random.next_i64(),
        1 => random.choose(&beyond(accepted)),
        2..=3 => random.choose(&numbers(accepted)),
        _ => fixnum(random, accepted),
    };
    FlonumCall::fixnum_to_flonum(width, n)
}

/// A fixnum, often one that is rounded.
pub fn fixnum(random: &mut Random, width: u64) -> i64 {
    if random.one_in(2) {
        tie(random, width).clamp(least(width), greatest(width))
    } else {
        random_fixnum(random, width)
    }
}

/// A number halfway between two flonums, or next to one; if the width is too small for such, any fixnum.
fn tie(random: &mut Random, width: u64) -> i64 {
    let Some(most) = width.checked_sub(1 + 53).filter(|&most| most > 0) else {
        return random_fixnum(random, width);
    };
    let dropped = 1 + random.below(most);
    // All ones are rounded up to a power of two.
    let significand = if random.one_in(8) { 2 * HIDDEN - 1 } else { HIDDEN | random.next_u64() % HIDDEN };
    let n = ((significand << dropped) | (1 << (dropped - 1))) as i64 + random.between(-1, 1);
    if random.one_in(2) {
        -n
    } else {
        n
    }
}

/// The smallest and the largest of one to four, most often; equal ones and zeros of unlike sign among them.
pub fn extremes(random: &mut Random) -> FlonumCall {
    let count = if random.one_in(16) { random.choose(&[0, 5, 6, 8, 1 << 32, u64::MAX]) } else { 1 + random.below(4) };
    let pool = pool(random);
    let mut flonums = [0; 4].map(|_| random.choose(&pool));
    if random.one_in(8) {
        flonums[random.below(4) as usize] = nan(random) | (random.next_u64() & SIGN);
    }
    FlonumCall::extremes(count, flonums)
}

/// What the arguments of one call are taken from.
fn pool(random: &mut Random) -> [u64; 4] {
    let x = flonum(random);
    match random.below(5) {
        0 => [0; 4].map(|_| flonum(random)),
        1 => [0, SIGN, 0, SIGN],
        2 => [0, SIGN, x, x ^ SIGN],
        // A number, its neighbours and its opposite. The neighbours of a zero or an infinity wrap around.
        3 => [x, x.wrapping_add(1), x.wrapping_sub(1), x ^ SIGN],
        _ => [0; 4].map(|_| random.choose(&SPECIAL)),
    }
}

#[cfg(test)]
mod tests {
    use super::*;
    use crate::flonum_kinds::{kind, way, KINDS, WAYS};
    use crate::reference::flonum::is_negative;

    /// One in four hundred flonums, at least, is of each kind and sign, and so with the ways in which fixnums are
    /// rounded.
    #[test]
    fn every_kind_comes_often() {
        let mut random = Random::new(4);
        let (mut kinds, mut ways) = ([[0; 2]; KINDS.len()], [[0; 2]; WAYS.len()]);
        for _ in 0..100_000 {
            let (x, n) = (flonum(&mut random), fixnum(&mut random, 64));
            kinds[kind(x)][usize::from(is_negative(x))] += 1;
            ways[way(n)][usize::from(n < 0)] += 1;
        }
        for (name, counts) in KINDS.into_iter().zip(kinds).chain(WAYS.into_iter().zip(ways)) {
            assert!(counts.iter().all(|&count| count >= 250), "{name} came {counts:?} times");
        }
    }
}
