//! The two sides of the flonum calls on the same random arguments. Making a case compares their answers bit for bit, also
//! on arguments of every kind that are not timed.

use std::hint::black_box;
use std::rc::Rc;

use crate::binding::{self, Extremes, FlonumAnswer};
use crate::plain_flonum as plain;
use crate::random::Random;
use crate::timing::{require, Case, Side};

const INPUTS: usize = 4096;
const WIDTH: u64 = 61;

type Unary = fn(f64) -> FlonumAnswer;

/// The calls of one flonum: the name, our function and plain Rust's.
const UNARY: [(&str, Unary, Unary); 7] = [
    ("flfloor", binding::flfloor, plain::floor),
    ("flceiling", binding::flceiling, plain::ceiling),
    ("fltruncate", binding::fltruncate, plain::truncate),
    ("flround", binding::flround, plain::round),
    ("flabs", binding::flabs, plain::abs),
    ("flnan?", binding::flnan, plain::is_nan),
    ("flfinite?", binding::flfinite, plain::is_finite),
];

pub fn cases(random: &mut Random) -> Vec<Case> {
    let mut cases = vec![conversion(random)];
    cases.extend(UNARY.map(|(name, ours, plain)| unary(random, name, ours, plain)));
    cases.push(extremes(random, 2));
    cases.push(extremes(random, 4));
    cases
}

/// Fixnums of every length, so that some have more digits than a flonum.
fn conversion(random: &mut Random) -> Case {
    let name = "fixnum->flonum";
    let draw = |random: &mut Random| {
        let least = -1 << random.between(0, WIDTH as i64 - 1);
        random.between(least, !least)
    };
    for _ in 0..INPUTS {
        let (width, n) = (random.between(20, 70) as u64, draw(random));
        compare(name, binding::fixnum_to_flonum(width, n), plain::fixnum_to_flonum(width, n));
    }
    let inputs: Rc<Vec<i64>> = Rc::new((0..INPUTS).map(|_| draw(random)).collect());
    for &n in inputs.iter() {
        compare(name, binding::fixnum_to_flonum(WIDTH, n), plain::fixnum_to_flonum(WIDTH, n));
    }
    let (width, plain) = (black_box(WIDTH), black_box(plain::fixnum_to_flonum as fn(u64, i64) -> FlonumAnswer));
    let ours = Side::new(&inputs, move |&n| read(binding::fixnum_to_flonum(width, n)));
    Case::new(name, ours, None, Side::new(&inputs, move |&n| read(plain(width, n))))
}

fn unary(random: &mut Random, name: &str, ours: Unary, plain: Unary) -> Case {
    let inputs = Rc::new((0..INPUTS).map(|_| with_fraction(random)).collect::<Vec<f64>>());
    let any = (0..INPUTS).map(|_| f64::from_bits(random.next_u64()));
    for x in inputs.iter().copied().chain(any) {
        compare(name, ours(x), plain(x));
    }
    // The compiler must not know which function of plain Rust is called.
    let plain = black_box(plain);
    let ours = Side::new(&inputs, move |&x| read(ours(x)));
    Case::new(name, ours, None, Side::new(&inputs, move |&x| read(plain(x))))
}

fn extremes(random: &mut Random, count: u64) -> Case {
    let name = format!("the smallest and the largest of {count}");
    let inputs = Rc::new((0..INPUTS).map(|_| [0; 4].map(|_: u8| with_fraction(random))).collect::<Vec<[f64; 4]>>());
    let bits = |answer: Extremes| (answer.refusal, answer.smallest.to_bits(), answer.largest.to_bits());
    for &args in inputs.iter() {
        for count in [count, 0, 1, 5] {
            let same = bits(binding::flextremes(count, args)) == bits(plain::extremes(count, args));
            require(same, &name, "plain Rust");
        }
    }
    let (count, plain) = (black_box(count), black_box(plain::extremes as fn(u64, [f64; 4]) -> Extremes));
    let sum = |answer: Extremes| answer.smallest + answer.largest + answer.refusal as f64;
    let ours = Side::new(&inputs, move |&args| sum(binding::flextremes(count, args)));
    Case::new(&name, ours, None, Side::new(&inputs, move |&args| sum(plain(count, args))))
}

/// From 2^-4 up to 2^54, of either sign.
fn with_fraction(random: &mut Random) -> f64 {
    let exponent = (1023 + random.between(-4, 53)) as u64;
    f64::from_bits(random.next_u64() & 0x800F_FFFF_FFFF_FFFF | exponent << 52)
}

/// Both sides read the answer as a caller does: the refusal, the kind, then the value.
fn read(answer: FlonumAnswer) -> u64 {
    match (answer.refusal, answer.kind) {
        (0, 1) => answer.fixnum as u64,
        (0, _) => answer.flonum.to_bits(),
        (refusal, _) => refusal,
    }
}

fn compare(name: &str, ours: FlonumAnswer, plain: FlonumAnswer) {
    let fields = |a: FlonumAnswer| (a.refusal, a.kind, a.fixnum, a.flonum.to_bits());
    require(fields(ours) == fields(plain), name, "plain Rust");
}
