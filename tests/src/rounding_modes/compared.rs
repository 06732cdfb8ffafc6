//! The calls in each rounding mode, and to nearest before and after.

use super::calls::calls;
use super::mode::Mode;
use super::promised::is_promised;
use super::{Modes, Seen};
use crate::checker::Checker;
use crate::random_calls;
use crate::report::difference;
use quebralua_reference::flonum_call::{FlonumAnswer, FlonumCall, FlonumOperation};

/// How many random fixnum and limb calls are compared in each mode.
const OTHER_PARTS: u64 = 10_000;

pub fn run(checker: &mut Checker) -> Modes {
    let calls = calls();
    let nearest: Vec<FlonumAnswer> = calls.iter().map(|call| checker.flonum(call)).collect();
    let mut seen = Vec::new();
    for mode in Mode::OTHERS {
        let got: Vec<FlonumAnswer> = mode.during(|| calls.iter().map(|call| checker.ask_flonum(call)).collect());
        mode.during(|| random_calls::run(checker, OTHER_PARTS));
        let counts = counts(mode, &calls, &nearest, &got);
        seen.push(Seen { mode: format!("{mode:?}"), is_obeyed: mode.is_obeyed(), counts });
        for call in &calls {
            checker.flonum(call);
        }
    }
    Modes(seen)
}

/// Compares what the header says of these answers, and counts those that are others than to nearest.
fn counts(
    mode: Mode,
    calls: &[FlonumCall],
    nearest: &[FlonumAnswer],
    got: &[FlonumAnswer],
) -> [(u64, u64); FlonumOperation::ALL.len()] {
    let mut counts = [(0, 0); FlonumOperation::ALL.len()];
    for ((call, &nearest), &got) in calls.iter().zip(nearest).zip(got) {
        if !is_promised(call, nearest, got) {
            let call = format!("/* rounding mode {mode:?} */\n{}", call.as_c());
            difference(
                &call,
                &format!("{nearest:x?}, or the flonum on the other side of a fixnum"),
                &format!("{got:x?}"),
            );
        }
        let (calls, others) = &mut counts[call.operation as usize];
        *calls += 1;
        *others += u64::from(nearest != got);
    }
    counts
}
