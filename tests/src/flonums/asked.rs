//! Flonum calls that the library answers alone, and the report of a law that does not hold.

use crate::checker::Checker;
use crate::report::difference;
use quebralua_reference::flonum_call::{FlonumAnswer, FlonumCall, FlonumOperation};

/// The bits of the flonum that a call of one flonum answers.
pub fn flonum(checker: &mut Checker, operation: FlonumOperation, x: u64) -> u64 {
    flonum_of(checker, &FlonumCall::unary(operation, x))
}

/// The bits of the flonum that the fixnum becomes.
pub fn converted(checker: &mut Checker, width: u64, n: i64) -> u64 {
    flonum_of(checker, &FlonumCall::fixnum_to_flonum(width, n))
}

fn flonum_of(checker: &mut Checker, call: &FlonumCall) -> u64 {
    match checker.ask_flonum(call) {
        FlonumAnswer::One { refusal: 0, kind: 2, fixnum: 0, flonum } => flonum,
        other => difference(&call.as_c(), "a flonum", &format!("{other:x?}")),
    }
}

/// The answer of one of the two questions.
pub fn question(checker: &mut Checker, operation: FlonumOperation, x: u64) -> bool {
    let call = FlonumCall::unary(operation, x);
    match checker.ask_flonum(&call) {
        FlonumAnswer::One { refusal: 0, kind: 1, fixnum: n @ 0..=1, flonum: 0 } => n == 1,
        other => difference(&call.as_c(), "the fixnum 0 or 1", &format!("{other:x?}")),
    }
}

pub fn bits(checker: &mut Checker, x: u64) -> u64 {
    let call = FlonumCall::unary(FlonumOperation::Bits, x);
    match checker.ask_flonum(&call) {
        FlonumAnswer::Bits(bits) => bits,
        other => difference(&call.as_c(), "bits", &format!("{other:x?}")),
    }
}

/// The smallest and the largest of one to four.
pub fn extremes(checker: &mut Checker, flonums: &[u64]) -> [u64; 2] {
    let call = extremes_call(flonums);
    match checker.ask_flonum(&call) {
        FlonumAnswer::Extremes { refusal: 0, smallest, largest } => [smallest, largest],
        other => difference(&call.as_c(), "two flonums", &format!("{other:x?}")),
    }
}

/// The call on one to four. What does not count is 0.
pub fn extremes_call(flonums: &[u64]) -> FlonumCall {
    let mut places = [0; 4];
    places[..flonums.len()].copy_from_slice(flonums);
    FlonumCall::extremes(flonums.len() as u64, places)
}

/// Ends the program if a law does not hold of these calls, whose answers are given.
pub fn require(holds: bool, law: &str, calls: &[FlonumCall], answers: &[u64]) {
    if !holds {
        let calls: Vec<String> = calls.iter().map(|call| call.as_c()).collect();
        difference(&calls.join("\n"), law, &format!("{answers:x?}"));
    }
}

/// The same, of calls of one flonum.
pub fn require_unary(holds: bool, law: &str, operations: &[FlonumOperation], x: u64, answers: &[u64]) {
    if !holds {
        let calls: Vec<FlonumCall> = operations.iter().map(|&operation| FlonumCall::unary(operation, x)).collect();
        require(holds, law, &calls, answers);
    }
}
