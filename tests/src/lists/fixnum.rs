//! Lists of codes 40 and 41 at one width.

use super::part::{Bitwise, Part};
use crate::checker::Checker;
use quebralua_reference::call::FixnumCall;
use quebralua_reference::fixnum_arguments::{greatest, least, positions, random_fixnum, random_width};
use quebralua_reference::random::Random;
use quebralua_reference::reference::integer::Integer;
use quebralua_reference::reference::lists::Step;

pub struct Fixnums {
    width: u64,
    start: i64,
    end: i64,
}

impl Fixnums {
    /// Some fields are as long as the width allows, and some have one bit.
    pub fn random(random: &mut Random) -> Fixnums {
        let width = random_width(random);
        let last = width as i64 - 1;
        let start = random.between(0, last - 1);
        let (start, end) = match random.below(16) {
            0 => (0, last),
            1 => (start, start + 1),
            _ => (start, random.between(start + 1, last)),
        };
        Fixnums { width, start, end }
    }

    fn describe(&self, code: u64, args: &[i64]) -> FixnumCall {
        let mut places = [i64::MAX; 4];
        places[..args.len()].copy_from_slice(args);
        FixnumCall { width: self.width, code, count: args.len() as u64, args: places }
    }

    fn describe_step(&self, x: i64, step: Step) -> FixnumCall {
        match step {
            Step::Rotate(count) => self.describe(40, &[x, self.start, self.end, count]),
            Step::Reverse => self.describe(41, &[x, self.start, self.end]),
        }
    }
}

impl Part for Fixnums {
    type Number = i64;

    fn field(&self) -> (i64, i64) {
        (self.start, self.end)
    }

    fn integer(&self, x: &i64) -> Integer {
        Integer::from_i128(i128::from(*x))
    }

    fn power_of_two(&self, exponent: i64) -> i64 {
        1 << exponent
    }

    fn accepts(&self, count: i64) -> bool {
        0 <= count && count <= self.end - self.start
    }

    fn random_number(&self, random: &mut Random) -> i64 {
        match random.below(8) {
            0 => random.choose(&[0, -1, least(self.width), greatest(self.width)]),
            _ => random_fixnum(random, self.width),
        }
    }

    fn random_count(&self, random: &mut Random) -> i64 {
        let f = self.end - self.start;
        match random.below(6) {
            0 => random.choose(&positions(self.width)),
            1 => random.choose(&[-1, 0, f - 1, f, f + 1]),
            2 => f,
            _ => random.between(0, f),
        }
    }

    fn random_operands(&self, random: &mut Random) -> u64 {
        random.below(5)
    }

    fn step(&self, checker: &mut Checker, x: &i64, step: Step) -> Option<i64> {
        let answer = checker.fixnum(self.describe_step(*x, step));
        answer.result().ok().map(|(first, _)| first)
    }

    fn step_text(&self, x: &i64, step: Step) -> String {
        self.describe_step(*x, step).as_c()
    }

    fn not(&self, checker: &mut Checker, x: &i64) -> i64 {
        checker.fixnum(self.describe(25, &[*x])).first
    }

    fn combine(&self, checker: &mut Checker, operation: Bitwise, numbers: &[i64]) -> i64 {
        let code = match operation {
            Bitwise::And => 26,
            Bitwise::Ior => 27,
            Bitwise::Xor => 28,
        };
        checker.fixnum(self.describe(code, numbers)).first
    }

    fn bit_count(&self, checker: &mut Checker, x: &i64) -> i64 {
        checker.fixnum(self.describe(30, &[*x])).first
    }
}
