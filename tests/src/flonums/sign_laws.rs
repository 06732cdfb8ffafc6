//! The laws of signs, of the questions and of NaNs.

use super::asked::{bits as bits_of, extremes, flonum, question, require, require_unary};
use super::exact::{is_nan, same_value, INFINITY, NAN, SIGN};
use super::Sample;
use crate::checker::Checker;
use quebralua_reference::flonum_call::FlonumCall;
use quebralua_reference::flonum_call::FlonumOperation::{self, *};

const ANSWER_FLONUMS: [FlonumOperation; 5] = [Floor, Ceiling, Truncate, Round, Abs];

/// A rounding keeps the sign bit, whatever it answers.
pub fn sign_stays(checker: &mut Checker, &Sample { x, .. }: &Sample) -> u64 {
    if is_nan(x) {
        return 0;
    }
    for operation in FlonumOperation::ROUNDINGS {
        let answer = flonum(checker, operation, x);
        require_unary(answer & SIGN == x & SIGN, "the same sign bit", &[operation], x, &[answer]);
    }
    4
}

/// The floor of the opposite is the opposite of the ceiling, and so on.
pub fn opposite(checker: &mut Checker, &Sample { x, .. }: &Sample) -> u64 {
    if is_nan(x) {
        return 0;
    }
    let pairs = [(Floor, Ceiling), (Ceiling, Floor), (Truncate, Truncate), (Round, Round)];
    for (operation, other) in pairs {
        let calls = [FlonumCall::unary(operation, x), FlonumCall::unary(other, x ^ SIGN)];
        let answers = [flonum(checker, operation, x), flonum(checker, other, x ^ SIGN)];
        require(answers[0] == answers[1] ^ SIGN, "opposite flonums", &calls, &answers);
    }
    4
}

/// The absolute of x is x or its opposite, has no sign, is that of the opposite too, and stays by a second call. It is
/// the largest of x and the opposite.
pub fn absolute(checker: &mut Checker, &Sample { x, .. }: &Sample) -> u64 {
    let abs = flonum(checker, Abs, x);
    let [other, twice] = [x ^ SIGN, abs].map(|x| flonum(checker, Abs, x));
    let [_, largest] = extremes(checker, &[x, x ^ SIGN]);
    let is_one = if is_nan(x) { abs == NAN } else { abs == x || abs == x ^ SIGN };
    let holds = is_one && abs & SIGN == 0 && other == abs && twice == abs && same_value(largest, abs);
    require_unary(holds, "the absolute", &[Abs], x, &[abs, other, twice, largest]);
    1
}

/// A NaN gives the one NaN to each call that answers a flonum, and no other number does. An infinity stays infinite,
/// and a finite number finite.
pub fn questions(checker: &mut Checker, &Sample { x, .. }: &Sample) -> u64 {
    let asked @ [nan, finite] = [Nan, Finite].map(|operation| question(checker, operation, x));
    let is_infinite = x & !SIGN == INFINITY;
    let count = [nan, finite, is_infinite].into_iter().filter(|&is| is).count();
    require_unary(count == 1, "one of NaN, finite and infinite", &[Nan, Finite], x, &asked.map(u64::from));
    for operation in ANSWER_FLONUMS {
        let answer = flonum(checker, operation, x);
        let same = [Nan, Finite].map(|question_of| question(checker, question_of, answer)) == asked;
        let holds = same && (answer == NAN) == nan;
        require_unary(holds, "NaN or finite as the argument", &[operation], x, &[answer]);
    }
    5
}

/// The bits are those of the flonum, or those of the one NaN; and so of each answer.
pub fn bits(checker: &mut Checker, &Sample { x, .. }: &Sample) -> u64 {
    let got = bits_of(checker, x);
    let nan = question(checker, Nan, x);
    require_unary(got == if nan { NAN } else { x }, "the flonum's bits", &[Bits], x, &[got]);
    for operation in ANSWER_FLONUMS {
        let answer = flonum(checker, operation, x);
        let got = bits_of(checker, answer);
        require_unary(got == answer, "the bits of the answer", &[operation], x, &[answer, got]);
    }
    6
}
