//! Random fixnum calls.

use crate::call::FixnumCall;
use crate::fixnum_arguments::{
    beyond, kind, least, nearest_accepted, numbers, positions, random_fixnum, random_width, refused_widths, Kind,
    NEW_BITS,
};
use crate::random::Random;
use crate::reference::fixnum::argument_counts;

/// A call, legal or not, most often near a limit.
pub fn call(random: &mut Random) -> FixnumCall {
    let width = width(random);
    let code = if random.one_in(100) { random.choose(&[0, 42, 43, u64::MAX]) } else { 1 + random.below(41) };
    let count = count(random, code);
    let args = arguments(random, nearest_accepted(width), code);
    FixnumCall { width, code, count, args }
}

/// Four arguments of that code at an accepted width.
pub fn arguments(random: &mut Random, width: u64, code: u64) -> [i64; 4] {
    let mut args = [0; 4];
    for (index, arg) in args.iter_mut().enumerate() {
        *arg = argument(random, width, code, index);
    }
    match code {
        16..=21 if random.one_in(24) => args = [least(width), -1, 0, 0],
        37 | 38 => shrink(random, code, &mut args),
        35 | 36 | 40 | 41 => order_field(random, width, code, &mut args),
        _ => {}
    }
    // An argument that is no fixnum, beside those of any value: a rotation count is seldom one.
    if random.one_in(32) {
        args[random.below(4) as usize] = random.choose(&beyond(width));
    }
    args
}

/// An accepted width, most often.
pub fn width(random: &mut Random) -> u64 {
    match random.below(100) {
        0 => random.choose(&refused_widths()),
        1 => random.next_u64() >> random.below(64),
        _ => random_width(random),
    }
}

fn count(random: &mut Random, code: u64) -> u64 {
    if random.one_in(40) || code == 0 || code > 41 {
        return random.choose(&[0, 1, 2, 3, 4, 5, 6, u64::MAX]);
    }
    let counts = argument_counts(code);
    counts.start() + random.below(counts.end() - counts.start() + 1)
}

fn argument(random: &mut Random, width: u64, code: u64, index: usize) -> i64 {
    match kind(code, index) {
        Kind::Number => number(random, width),
        Kind::Position => match random.below(20) {
            0 => random.choose(&positions(width)),
            1 if (37..=39).contains(&code) => -random.between(0, width as i64),
            _ => random.between(0, width as i64 - 1),
        },
        Kind::NewBit if random.one_in(8) => random.choose(&NEW_BITS),
        Kind::NewBit => random.between(0, 1),
    }
}

fn number(random: &mut Random, width: u64) -> i64 {
    match random.below(32) {
        0 => random.next_i64(),
        1..=6 => random.choose(&numbers(width)),
        7..=12 => random.between(-9, 9),
        _ => random_fixnum(random, width),
    }
}

/// Makes the results of half the shifts small enough, and half the distances of code 37 negative.
fn shrink(random: &mut Random, code: u64, args: &mut [i64; 4]) {
    if random.one_in(2) {
        args[0] >>= args[1] & 63;
    }
    if code == 37 && random.one_in(2) {
        args[1] = args[1].wrapping_neg();
    }
}

/// Makes most fields legal, some of them empty or as long as the width allows, and most rotation counts legal too.
fn order_field(random: &mut Random, width: u64, code: u64, args: &mut [i64; 4]) {
    if args[1] > args[2] && !random.one_in(8) {
        args.swap(1, 2);
    }
    match random.below(32) {
        0 | 1 => args[2] = args[1],
        2 => (args[1], args[2]) = (0, width as i64 - 1),
        _ => {}
    }
    if code == 40 && !random.one_in(8) {
        args[3] = rotation_count(random, args[2].wrapping_sub(args[1]));
    }
}

/// A count for a field of f bits: often a full rotation, at times just outside the domain.
fn rotation_count(random: &mut Random, f: i64) -> i64 {
    match random.below(16) {
        0 | 1 => f,
        2 => random.choose(&[-1, f.wrapping_add(1)]),
        _ => random.between(0, f.max(0)),
    }
}

#[cfg(test)]
mod tests {
    use super::*;
    use crate::fixnum_answers::fixnum_answers;
    use crate::reference::fixnum::{fixnum, Answer};
    use crate::refusal::{DOMAIN, DONE};

    /// Of every hundred calls of code 40, how many have that answer and a field and count as `is` says, given the
    /// width, f and the count.
    fn share(answer: u64, is: impl Fn(i64, i64, i64) -> bool) -> usize {
        let mut random = Random::new(1);
        let calls = std::iter::repeat_with(|| call(&mut random)).filter(|call| call.code == 40);
        let chosen = |call: &FixnumCall| {
            let [_, start, end, count] = call.args;
            let f = end.wrapping_sub(start);
            fixnum(call.width, 40, call.args, call.count).refusal == answer && is(call.width as i64, f, count)
        };
        calls.take(10_000).filter(chosen).count() / 100
    }

    #[test]
    fn rotations_at_the_limits_come_often() {
        assert!(share(DONE, |_, f, count| f > 0 && count == f) >= 5);
        assert!(share(DONE, |_, f, _| f == 0) >= 5);
        assert!(share(DONE, |width, f, _| f == width - 1) >= 2);
        assert!(share(DOMAIN, |_, f, count| f >= 0 && count.checked_sub(1) == Some(f)) >= 1);
        assert!(share(DOMAIN, |_, f, count| f >= 0 && count == -1) >= 1);
        assert!(share(DONE, |_, f, count| 0 < count && count < f) >= 40);
    }

    /// One in two hundred calls of a code, at least, has each answer that the code can give, by refusal and place.
    #[test]
    fn every_answer_comes_often() {
        let mut random = Random::new(2);
        let (mut calls, mut answers) = ([0; 42], [[[0; 5]; 7]; 42]);
        for _ in 0..400_000 {
            let call = call(&mut random);
            let Answer { refusal, place, .. } = fixnum(call.width, call.code, call.args, call.count);
            let row = if call.code <= 41 { call.code as usize } else { 0 };
            calls[row] += 1;
            answers[row][refusal as usize][place as usize] += 1;
        }
        for code in 1..=41 {
            for (refusal, place) in fixnum_answers(code as u64) {
                let count = answers[code][refusal as usize][place as usize];
                assert!(200 * count >= calls[code], "code {code}: refusal {refusal}, place {place} came {count} times");
            }
        }
    }
}
