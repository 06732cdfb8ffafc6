//! How the answers to one call at two widths agree: where the smaller width is done, so is the greater, and both answer
//! the same. Two kinds of calls answer by their width:
//!
//! - the carry operations, whose results mean the same integer: low + carry * 2^width;
//! - fxcopy-bit with a new sign at the smaller width, which is a bit below the sign at the greater one.

use super::fixnum::Answer;
use crate::call::FixnumCall;
use crate::refusal::DONE;

/// A call, and the answer to it.
pub type Answered = (FixnumCall, Answer);

/// Whether they agree. The calls differ in nothing but their widths, and the smaller is done.
pub fn agree((call, answer): &Answered, (wider_call, wider): &Answered) -> bool {
    let results = match (call.code, new_sign(call)) {
        (22..=24, _) => whole(call, answer) == whole(wider_call, wider),
        (_, Some(bit)) => {
            let x = i128::from(call.args[0]);
            let firsts = (i128::from(answer.first), i128::from(wider.first));
            firsts == (x - bit, x + bit) && (answer.second, wider.second) == (0, 0)
        }
        _ => (answer.first, answer.second) == (wider.first, wider.second),
    };
    results && wider.refusal == DONE && (answer.place, wider.place) == (0, 0)
}

/// The integer that the two results of a carry operation mean.
fn whole(call: &FixnumCall, answer: &Answer) -> i128 {
    i128::from(answer.first) + (i128::from(answer.second) << call.width)
}

/// Where fxcopy-bit changes the sign of x at this width: 2^(width - 1), with the sign that x has. This width takes it
/// away from x, and a greater one adds it.
fn new_sign(call: &FixnumCall) -> Option<i128> {
    let [x, position, bit, _] = call.args;
    let last = call.width - 1;
    let changed = call.code == 34 && position == last as i64 && (bit == 1) != (x < 0);
    changed.then_some(if x < 0 { -1 << last } else { 1 << last })
}
