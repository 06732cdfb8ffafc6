//! What lists of calls need of a part: its numbers, one field, and the library's calls on them.

use crate::checker::Checker;
use quebralua_reference::random::Random;
use quebralua_reference::reference::integer::Integer;
use quebralua_reference::reference::lists::Step;
use std::fmt::Debug;

#[derive(Clone, Copy, Debug)]
pub enum Bitwise {
    And,
    Ior,
    Xor,
}

/// Fixnums at one width, or limbs, with one field whose start is below its end.
pub trait Part {
    type Number: Clone + Debug + PartialEq;

    fn field(&self) -> (i64, i64);
    fn integer(&self, x: &Self::Number) -> Integer;
    fn power_of_two(&self, exponent: i64) -> Self::Number;

    /// Whether a rotate call with this count is done.
    fn accepts(&self, count: i64) -> bool;

    fn random_number(&self, random: &mut Random) -> Self::Number;
    /// A rotation count, refused ones among them.
    fn random_count(&self, random: &mut Random) -> i64;
    /// How many numbers and, ior and xor get.
    fn random_operands(&self, random: &mut Random) -> u64;

    /// The answer of one call; none where it is refused.
    fn step(&self, checker: &mut Checker, x: &Self::Number, step: Step) -> Option<Self::Number>;
    /// That call as C.
    fn step_text(&self, x: &Self::Number, step: Step) -> String;

    fn not(&self, checker: &mut Checker, x: &Self::Number) -> Self::Number;
    fn combine(&self, checker: &mut Checker, operation: Bitwise, numbers: &[Self::Number]) -> Self::Number;
    fn bit_count(&self, checker: &mut Checker, x: &Self::Number) -> i64;

    fn is_done(&self, step: Step) -> bool {
        match step {
            Step::Rotate(count) => self.accepts(count),
            Step::Reverse => true,
        }
    }

    /// Every call of the list as C, with the numbers handed on.
    fn text(&self, checker: &mut Checker, x: &Self::Number, steps: &[Step]) -> String {
        let mut text = format!("/* a list of {} calls, from {x:?} */\n", steps.len());
        let mut x = x.clone();
        for &step in steps {
            text += &format!("{{\n{}\n}}\n", self.step_text(&x, step));
            x = self.step(checker, &x, step).unwrap_or(x);
        }
        text
    }
}

/// The number at the end of the list: each call gets what the one before answered or, if that was refused, was given.
pub fn end_of<P: Part>(checker: &mut Checker, part: &P, x: &P::Number, steps: &[Step]) -> P::Number {
    let mut x = x.clone();
    for &step in steps {
        if let Some(answer) = part.step(checker, &x, step) {
            x = answer;
        }
    }
    x
}
