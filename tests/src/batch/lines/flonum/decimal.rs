//! Random decimal numbers, without a sign.

use super::{exponent, pointed};
use crate::batch::flonum::exact::{halfway_above, Decimal};
use crate::batch::flonum::spelling::{MOST_DIGITS, MOST_EXPONENT};
use crate::random::Random;
use crate::random_arguments::flonum::flonum;
use crate::reference::flonum::{is_finite, magnitude, significand_and_places, HIDDEN, INFINITY};

pub fn unsigned(random: &mut Random) -> String {
    match random.below(32) {
        0..=7 => short(random),
        8..=14 => seventeen(random),
        15..=17 => long(random),
        18..=19 => around_the_ends(random),
        20..=21 => at_the_limits(random),
        22..=27 => halfway(random),
        28..=30 => exact(random),
        _ => longest(random),
    }
}

fn digits(random: &mut Random, count: u64) -> String {
    let style = random.below(8);
    let digit = |random: &mut Random| match style {
        0 => '0',
        1 => '9',
        _ => char::from(b'0' + random.below(10) as u8),
    };
    let first = char::from(b'1' + random.below(9) as u8);
    std::iter::once(first).chain((1..count).map(|_| digit(random))).collect()
}

/// digits * 10^power, with the point anywhere, or as far as it takes to need no exponent.
fn written(random: &mut Random, digits: &str, power: i64) -> String {
    if (-(MOST_DIGITS as i64) - 2..=400).contains(&power) && random.one_in(3) {
        return plain(digits, power);
    }
    let (mantissa, places) = pointed(random, digits);
    let power = power + places;
    let letter = if random.one_in(8) { 'E' } else { 'e' };
    if power == 0 && !random.one_in(8) {
        mantissa
    } else {
        mantissa + &exponent(random, letter, power)
    }
}

/// digits * 10^power without an exponent.
fn plain(digits: &str, power: i64) -> String {
    if power >= 0 {
        return format!("{digits}{}", "0".repeat(power as usize));
    }
    let places = power.unsigned_abs() as usize;
    let padded = format!("{}{digits}", "0".repeat((places + 1).saturating_sub(digits.len())));
    let (whole, fraction) = padded.split_at(padded.len() - places);
    format!("{whole}.{fraction}")
}

/// One to five digits, most often without an exponent; quarters among them.
fn short(random: &mut Random) -> String {
    if random.one_in(4) {
        let quarters = random.below(400);
        return format!("{}.{}", quarters / 4, random.choose(&["0", "25", "5", "75", "49", "51"]));
    }
    let count = 1 + random.below(5);
    let digits = digits(random, count);
    let power = if random.one_in(4) { random.between(-30, 30) } else { -random.between(0, 5) };
    written(random, &digits, power)
}

/// A flonum, as Rust prints it: the fewest digits that are read back, or 17.
fn seventeen(random: &mut Random) -> String {
    let x = f64::from_bits(finite(random));
    match random.below(4) {
        0 => format!("{x:e}"),
        1 if (1e-20..1e20).contains(&x) => format!("{x}"),
        _ => format!("{x:.16e}"),
    }
}

/// The magnitude of a finite flonum: any, one about which a fraction can be asked, or a subnormal.
fn finite(random: &mut Random) -> u64 {
    match random.below(8) {
        0..=2 => random.below(INFINITY),
        3 => random.below(HIDDEN) >> random.below(52),
        4 => INFINITY - 1 - (random.below(HIDDEN) >> random.below(53)),
        _ => Some(magnitude(flonum(random))).filter(|&x| is_finite(x)).unwrap_or(0),
    }
}

/// 18 to 1,500 digits.
fn long(random: &mut Random) -> String {
    let most = random.choose(&[30, 100, 800, MOST_DIGITS as u64]);
    let count = 18 + random.below(most - 17);
    let digits = digits(random, count);
    let power = random.between(-340, 320) - count as i64;
    written(random, &digits, power.clamp(-MOST_EXPONENT, MOST_EXPONENT))
}

/// Around the smallest and the greatest flonum.
fn around_the_ends(random: &mut Random) -> String {
    let count = 1 + random.below(20);
    let digits = digits(random, count);
    let power = if random.one_in(2) { random.between(-330, -300) } else { random.between(300, 312) };
    written(random, &digits, power - count as i64)
}

/// Exponents at their limits, and beyond.
fn at_the_limits(random: &mut Random) -> String {
    let count = if random.one_in(2) { 1 + random.below(4) } else { 1100 + random.below(401) };
    let digits = digits(random, count);
    let beyond = random.choose(&[-1, 0, 0, 0, 1, 9, 1_000, 100_000, 1 << 40, i64::MAX - MOST_EXPONENT]);
    let n = if random.one_in(2) { MOST_EXPONENT + beyond } else { -MOST_EXPONENT - beyond };
    let point = random.choose(&["", ".", "."]);
    // A negative exponent has many digits before the point, so that the number need not be a zero.
    let number =
        if n < 0 { format!("{digits}{point}") } else { format!(".{}{digits}", "0".repeat(1500 - count as usize)) };
    number + &exponent(random, 'e', n)
}

/// A number halfway between two flonums, or next to it.
fn halfway(random: &mut Random) -> String {
    let x = match random.below(8) {
        0 => random.choose(&[0, 1, 2, HIDDEN - 1, HIDDEN, INFINITY - 1, INFINITY - 2]),
        _ => finite(random),
    };
    let (n, places) = halfway_above(x);
    near(random, Decimal::quotient(n, places))
}

/// A flonum written out, or a number next to it.
fn exact(random: &mut Random) -> String {
    let (significand, places) = significand_and_places(finite(random));
    near(random, Decimal::quotient(significand, places))
}

/// The number, or one that differs from it in the last digit or far behind it.
fn near(random: &mut Random, number: Decimal) -> String {
    let Decimal { mut digits, mut exponent } = number;
    let room = MOST_DIGITS.saturating_sub(digits.len() + 1) as u64;
    match random.below(8) {
        _ if digits.is_empty() => digits.push('0'),
        0 => {
            let zeros = random.below(room + 1) as usize;
            digits += &format!("{}1", "0".repeat(zeros));
            exponent -= zeros as i64 + 1;
        }
        1 => {
            // The last digit is not 0: one less, and nines behind it.
            let nines = random.below(room + 1) as usize;
            let last = digits.pop().expect("a digit") as u8 - 1;
            digits.push(char::from(last));
            digits += &"9".repeat(nines);
            exponent -= nines as i64;
        }
        2 if room < 300 || random.one_in(2) => digits.truncate(1 + random.below(digits.len() as u64) as usize),
        _ => {}
    }
    written(random, &digits, exponent)
}

/// About as many digits as a number can have.
fn longest(random: &mut Random) -> String {
    let count = MOST_DIGITS as u64 - 1 + random.below(3);
    let zeros = if random.one_in(2) { random.below(count) } else { 0 };
    let digits = format!("{}{}", "0".repeat(zeros as usize), digits(random, count - zeros));
    let behind = random.below(count + 1) as usize;
    let (whole, fraction) = digits.split_at(count as usize - behind);
    let n =
        (behind as i64 - count as i64 + random.between(-340, 320) + zeros as i64).clamp(-MOST_EXPONENT, MOST_EXPONENT);
    format!("{whole}.{fraction}{}", exponent(random, 'e', n))
}
