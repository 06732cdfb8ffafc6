//! What a rule comes to on its inputs: each call by the fixnum calls, its arguments left to right. The first refusal that
//! is met is the rule's.

use super::{Form, Rule, INPUTS};
use crate::reference::fixnum::{fixnum, Answer};
use crate::reference::width::is_fixnum;
use crate::refusal::{DONE, NOT_FIXNUM};

/// The value, or the refusal number and the place.
pub fn evaluate(rule: &Rule, inputs: &[i64; INPUTS]) -> Result<i64, (u64, u64)> {
    value(&rule.form, rule.width(), inputs)
}

fn value(form: &Form, width: u64, inputs: &[i64; INPUTS]) -> Result<i64, (u64, u64)> {
    match form {
        Form::Constant(n) => fixnum_or_refusal(*n, width),
        Form::Input(index) => fixnum_or_refusal(inputs[*index], width),
        Form::Call { code, args } => {
            let mut values = [0; 4];
            for (place, arg) in args.iter().enumerate() {
                values[place] = value(arg, width, inputs)?;
            }
            call(width, *code, values, args.len() as u64)
        }
    }
}

/// A constant or an input belongs to no call: its refusal has place 0.
fn fixnum_or_refusal(n: i64, width: u64) -> Result<i64, (u64, u64)> {
    if is_fixnum(width, i128::from(n)) {
        Ok(n)
    } else {
        Err((NOT_FIXNUM, 0))
    }
}

/// The first result of a call; the codes of a rule have no other.
pub fn call(width: u64, code: u64, args: [i64; 4], count: u64) -> Result<i64, (u64, u64)> {
    let Answer { refusal, first, place, .. } = fixnum(width, code, args, count);
    if refusal == DONE {
        Ok(first)
    } else {
        Err((refusal, place))
    }
}
