//! Limb calls that the library answers alone.

use crate::checker::Checker;
use crate::report::difference;
use quebralua_reference::call::LimbCall;
use quebralua_reference::operation::Operation::{self, *};
use quebralua_reference::random::Random;
use quebralua_reference::reference::limbs::{GREATEST_END, MOST_LIMBS};

/// What trim writes. It has to be done.
pub fn trimmed(checker: &mut Checker, limbs: &[u32]) -> Vec<u32> {
    let call = LimbCall::new(Trim, &[limbs], &[]);
    let written = checker.ask_write(&call, MOST_LIMBS);
    written.unwrap_or_else(|refusal| difference(&call.as_c(None), "done", &format!("refusal {refusal}")))
}

/// The refusal number of a call, where there is room for every result; 0 is done.
pub fn refusal(checker: &mut Checker, call: &LimbCall) -> u64 {
    if call.operation.writes() {
        checker.ask_write(call, MOST_LIMBS).err().unwrap_or(0)
    } else {
        checker.ask_value(call).refusal
    }
}

/// The limb calls that take so many operands, trim among them.
pub fn calls_of(operands: usize) -> impl Iterator<Item = Operation> {
    Operation::ALL.into_iter().filter(move |operation| operation.operands() == operands && !operation.takes_width())
}

/// A call with numbers that are in their domains, and such that no result is too long.
pub fn legal_call<'a>(random: &mut Random, operation: Operation, operands: &[&'a [u32]]) -> LimbCall<'a> {
    let greatest = if random.one_in(20) { GREATEST_END } else { 200 };
    let end = random.between(0, greatest);
    let start = random.between(0, end);
    let numbers = match operation {
        CopyBit => [random.between(0, 200), random.between(0, 1), 0],
        Shift => [-start, 0, 0],
        ShiftLeft if operands[0].len() >= MOST_LIMBS - 10 => [0; 3],
        ShiftLeft => [random.between(0, 200), 0, 0],
        _ => [start, end, random.next_i64() & i64::MAX],
    };
    LimbCall::new(operation, operands, &numbers[..operation.numbers()])
}
