//! Random flonum calls, each compared with the second implementation, and the laws of flonums, by the library's answers
//! alone.

mod asked;
mod conversion_laws;
mod exact;
mod extremes_laws;
mod rounding_laws;
mod sign_laws;

use crate::checker::Checker;
use quebralua_reference::fixnum_arguments::random_width;
use quebralua_reference::flonum_call::FlonumCall;
use quebralua_reference::random::Random;
use quebralua_reference::random_arguments::flonum::{conversion, extremes, fixnum, flonum};
use std::fmt;

/// There is one call of fixnum->flonum, and one of the smallest and the largest, to so many flonums.
const OTHERS_EVERY: u64 = 4;
/// The laws are compared once in so many flonums.
const LAWS_EVERY: u64 = 50;

/// What the laws are compared on.
pub struct Sample {
    x: u64,
    y: u64,
    /// An accepted width, and two fixnums at it.
    width: u64,
    n: i64,
    m: i64,
    /// One to four of these count.
    count: usize,
    flonums: [u64; 4],
}

/// Compares a law, and answers how many times: 0 where it says nothing of this sample.
type Law = fn(&mut Checker, &Sample) -> u64;

const LAWS: [(&str, Law); 20] = [
    ("between floor and ceiling", rounding_laws::between),
    ("one apart", rounding_laws::one_apart),
    ("toward zero", rounding_laws::toward_zero),
    ("the nearest whole number", rounding_laws::nearest),
    ("rounded twice", rounding_laws::rounded_twice),
    ("roundings in order", rounding_laws::in_order),
    ("the sign stays", sign_laws::sign_stays),
    ("roundings of the opposite", sign_laws::opposite),
    ("absolute", sign_laws::absolute),
    ("questions", sign_laws::questions),
    ("bits", sign_laws::bits),
    ("fixnums up to 2^53", conversion_laws::exact),
    ("no flonum is closer", conversion_laws::nearest),
    ("fixnums in order", conversion_laws::in_order),
    ("the opposite fixnum", conversion_laws::opposite),
    ("greater widths", conversion_laws::greater_widths),
    ("whole numbers stay", conversion_laws::whole_stays),
    ("extremes: the first of its value", extremes_laws::first_of_its_value),
    ("extremes: any order, other uncounted ones", extremes_laws::any_order),
    ("extremes: of pairs, of the opposites", extremes_laws::pairs_and_opposites),
];

/// How often each law was compared.
pub struct Laws {
    samples: u64,
    /// In the order of `LAWS`.
    counts: [u64; LAWS.len()],
}

/// Makes every call of one flonum on that many flonums.
pub fn run(checker: &mut Checker, flonums: u64) -> Laws {
    let mut laws = Laws { samples: 0, counts: [0; LAWS.len()] };
    for round in 0..flonums {
        let x = flonum(&mut checker.random);
        checker.every_unary(x);
        if round % OTHERS_EVERY == 0 {
            for call in [conversion, extremes] {
                let call = call(&mut checker.random);
                checker.flonum(&call);
            }
        }
        if round % LAWS_EVERY == 0 {
            laws.round(checker);
        }
    }
    laws
}

impl Sample {
    fn new(random: &mut Random) -> Sample {
        let width = random_width(random);
        let FlonumCall { flonums, .. } = extremes(random);
        let [n, m] = [0; 2].map(|_| fixnum(random, width));
        Sample { x: flonum(random), y: flonum(random), width, n, m, count: 1 + random.below(4) as usize, flonums }
    }

    fn counted(&self) -> &[u64] {
        &self.flonums[..self.count]
    }
}

impl Laws {
    /// Compares every law on one sample.
    fn round(&mut self, checker: &mut Checker) {
        let sample = Sample::new(&mut checker.random);
        self.samples += 1;
        for (count, (_, law)) in self.counts.iter_mut().zip(LAWS) {
            *count += law(checker, &sample);
        }
    }

    /// Every law that was never compared.
    pub fn missing(&self) -> Vec<String> {
        let laws = LAWS.iter().zip(self.counts).filter(|&(_, count)| count == 0);
        laws.map(|((name, _), _)| format!("flonums: {name} never compared")).collect()
    }
}

impl fmt::Display for Laws {
    fn fmt(&self, f: &mut fmt::Formatter) -> fmt::Result {
        let laws: Vec<String> =
            LAWS.iter().zip(self.counts).map(|((name, _), count)| format!("{name} {count}")).collect();
        write!(f, "laws of {} samples of flonums: {}", self.samples, laws.join(", "))
    }
}
