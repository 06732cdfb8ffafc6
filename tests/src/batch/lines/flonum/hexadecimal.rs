//! Random hexadecimal numbers, without a sign.

use super::{exponent, pointed};
use crate::batch::flonum::exact::halfway_above;
use crate::batch::flonum::spelling::{MOST_DIGITS, MOST_EXPONENT};
use crate::batch::flonum::text;
use crate::random::Random;
use crate::random_arguments::flonum::flonum;
use crate::reference::flonum::{is_finite, magnitude, HIDDEN, INFINITY};

pub fn unsigned(random: &mut Random) -> String {
    match random.below(16) {
        0..=4 => printed(random),
        5..=8 => halfway(random),
        9..=12 => any(random),
        13 => around_the_ends(random),
        14 => at_the_limits(random),
        _ => longest(random),
    }
}

fn digits(random: &mut Random, count: u64) -> String {
    let style = random.below(8);
    let digit = |random: &mut Random| match style {
        0 => 0,
        1 => 15,
        _ => random.below(16) as u32,
    };
    let first = 1 + random.below(15) as u32;
    let all = std::iter::once(first).chain((1..count).map(|_| digit(random)));
    all.map(|n| char::from_digit(n, 16).expect("a digit")).collect()
}

/// digits * 2^power, with the point anywhere, in either case.
fn written(random: &mut Random, digits: &str, power: i64) -> String {
    let (mantissa, places) = pointed(random, digits);
    let word = format!("0x{mantissa}{}", exponent(random, 'p', power + 4 * places));
    if random.one_in(12) {
        word.to_ascii_uppercase()
    } else {
        word
    }
}

/// A finite magnitude: any, one about which a fraction can be asked, or a subnormal.
fn finite(random: &mut Random) -> u64 {
    match random.below(8) {
        0..=2 => random.below(INFINITY),
        3..=4 => random.below(HIDDEN) >> random.below(52),
        5 => random.choose(&[0, 1, HIDDEN - 1, HIDDEN, INFINITY - 1]),
        _ => Some(magnitude(flonum(random))).filter(|&x| is_finite(x)).unwrap_or(1),
    }
}

/// A flonum as it is printed.
fn printed(random: &mut Random) -> String {
    text::unsigned(finite(random))
}

/// A number halfway between two flonums, or next to it by far less than half of their distance.
fn halfway(random: &mut Random) -> String {
    let (n, places) = halfway_above(finite(random));
    let zeros = random.below(16);
    match random.below(4) {
        0 => written(random, &format!("{n:x}{}1", "0".repeat(zeros as usize)), -places - 4 * (zeros as i64 + 1)),
        1 => written(random, &format!("{:x}f{}", n - 1, "f".repeat(zeros as usize)), -places - 4 * (zeros as i64 + 1)),
        _ => written(random, &format!("{n:x}"), -places),
    }
}

/// One to twenty digits, of any size that a flonum can have.
fn any(random: &mut Random) -> String {
    let count = 1 + random.below(20);
    let power = if random.one_in(2) { random.between(-80, 60) } else { random.between(-1100, 1040) };
    let digits = digits(random, count);
    written(random, &digits, power - 4 * count as i64)
}

/// Around the smallest and the greatest flonum.
fn around_the_ends(random: &mut Random) -> String {
    let count = 1 + random.below(20);
    let power = if random.one_in(2) { random.between(-1080, -1015) } else { random.between(1018, 1028) };
    let digits = digits(random, count);
    written(random, &digits, power - 4 * count as i64)
}

/// Exponents at their limits, and beyond.
fn at_the_limits(random: &mut Random) -> String {
    let zeros = "0".repeat(100 + random.below(550) as usize);
    let (count, beyond) = (1 + random.below(20), random.choose(&[-1, 0, 0, 0, 1, 1_000, 1 << 40]));
    let digits = digits(random, count);
    match random.below(2) {
        0 => format!("0x.{zeros}{digits}{}", exponent(random, 'p', MOST_EXPONENT + beyond)),
        _ => format!("0x{digits}{zeros}{}", exponent(random, 'p', -MOST_EXPONENT - beyond)),
    }
}

/// About as many digits as a number can have.
fn longest(random: &mut Random) -> String {
    let count = MOST_DIGITS as u64 - 1 + random.below(3);
    let digits = digits(random, count);
    let behind = if random.one_in(2) { count - random.below(200) } else { random.below(count + 1) };
    let (whole, fraction) = digits.split_at((count - behind) as usize);
    let n = random.between(-1100, 1040).clamp(-MOST_EXPONENT, MOST_EXPONENT);
    format!("0x{whole}.{fraction}{}", exponent(random, 'p', n))
}
