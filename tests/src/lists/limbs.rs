//! Lists of the two limb operations.

use super::part::{Bitwise, Part};
use crate::checker::Checker;
use crate::outputs::WITH_ROOM;
use crate::report::{difference, shown};
use quebralua_reference::call::LimbCall;
use quebralua_reference::operation::Operation;
use quebralua_reference::random::Random;
use quebralua_reference::random_arguments::limbs::{accepted_operand, count, padding};
use quebralua_reference::reference::integer::Integer;
use quebralua_reference::reference::limbs::GREATEST_END;
use quebralua_reference::reference::lists::Step;

pub struct Limbs {
    start: i64,
    end: i64,
}

impl Limbs {
    /// Most fields lie in the first few limbs; some reach the greatest end.
    pub fn random(random: &mut Random) -> Limbs {
        let greatest = match random.below(40) {
            0 => GREATEST_END,
            1 | 2 => 1200,
            _ => 140,
        };
        let end = if random.one_in(16) { greatest } else { random.between(1, greatest) };
        Limbs { start: random.between(0, end - 1), end }
    }

    fn describe<'a>(&self, x: &'a [u32], step: Step) -> LimbCall<'a> {
        match step {
            Step::Rotate(count) => LimbCall::new(Operation::Rotate, &[x], &[self.start, self.end, count]),
            Step::Reverse => LimbCall::new(Operation::Reverse, &[x], &[self.start, self.end]),
        }
    }

    /// Each call of a list from a padded operand is refused, so that it ends where it begins. How many there were.
    pub fn check_padded(&self, checker: &mut Checker, steps: &[Step]) -> u64 {
        let x = accepted_operand(&mut checker.random);
        let x = padding(&mut checker.random, &x);
        for &step in steps {
            if let Some(answer) = self.step(checker, &x, step) {
                difference(&self.step_text(&x, step), "refused", &shown(&answer));
            }
        }
        steps.len() as u64
    }

    /// The result of a call on a buffer with room.
    fn write(checker: &mut Checker, call: &LimbCall) -> Option<Vec<u32>> {
        let shape = checker.random.choose(&WITH_ROOM);
        checker.write(call, shape)
    }
}

impl Part for Limbs {
    type Number = Vec<u32>;

    fn field(&self) -> (i64, i64) {
        (self.start, self.end)
    }

    fn integer(&self, x: &Vec<u32>) -> Integer {
        Integer::from_limbs(x)
    }

    fn power_of_two(&self, exponent: i64) -> Vec<u32> {
        Integer::build(exponent as usize + 1, false, |i| i as i64 == exponent).to_limbs()
    }

    fn accepts(&self, count: i64) -> bool {
        0 <= count
    }

    fn random_number(&self, random: &mut Random) -> Vec<u32> {
        accepted_operand(random)
    }

    fn random_count(&self, random: &mut Random) -> i64 {
        if random.one_in(6) {
            random.choose(&[-1, -32, i64::MIN])
        } else {
            count(random, self.end - self.start)
        }
    }

    fn random_operands(&self, _: &mut Random) -> u64 {
        2
    }

    fn step(&self, checker: &mut Checker, x: &Vec<u32>, step: Step) -> Option<Vec<u32>> {
        Limbs::write(checker, &self.describe(x, step))
    }

    fn step_text(&self, x: &Vec<u32>, step: Step) -> String {
        self.describe(x, step).as_c(None)
    }

    fn not(&self, checker: &mut Checker, x: &Vec<u32>) -> Vec<u32> {
        let call = LimbCall::new(Operation::Not, &[x], &[]);
        Limbs::write(checker, &call).expect("not is done where there is room")
    }

    fn combine(&self, checker: &mut Checker, operation: Bitwise, numbers: &[Vec<u32>]) -> Vec<u32> {
        let operation = match operation {
            Bitwise::And => Operation::And,
            Bitwise::Ior => Operation::Ior,
            Bitwise::Xor => Operation::Xor,
        };
        let call = LimbCall::new(operation, &[&numbers[0], &numbers[1]], &[]);
        Limbs::write(checker, &call).expect("this is done where there is room")
    }

    fn bit_count(&self, checker: &mut Checker, x: &Vec<u32>) -> i64 {
        checker.value(&LimbCall::new(Operation::BitCount, &[x], &[])).value
    }
}
