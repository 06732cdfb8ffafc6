//! Makes a described call through the binding.

use crate::binding::*;
use quebralua_reference::call::{FixnumCall, LimbCall};
use quebralua_reference::flonum_call::{self, FlonumCall, FlonumOperation};
use quebralua_reference::fold_call::{FoldAnswer, FoldCall};
use quebralua_reference::operation::Operation::*;
use quebralua_reference::reference::fold as reference;
use quebralua_reference::rule_call as described;
use quebralua_reference::rule_call::RuleCall;

pub fn call_fixnum(call: &FixnumCall) -> FixnumAnswer {
    fixnum(call.width, call.code, call.count, call.args)
}

pub fn call_write(call: &LimbCall, out: &mut [u32], first: u64) -> Written {
    let [x, y, z] = call.operands;
    let [a, b, c] = call.numbers;
    match call.operation {
        Not => bitwise_not(x, out, first),
        And => bitwise_and(x, y, out, first),
        Ior => bitwise_ior(x, y, out, first),
        Xor => bitwise_xor(x, y, out, first),
        If => bitwise_if(x, y, z, out, first),
        CopyBit => bitwise_copy_bit(x, a, b, out, first),
        BitField => bitwise_bit_field(x, a, b, out, first),
        CopyBitField => bitwise_copy_bit_field(x, a, b, y, out, first),
        Shift => bitwise_shift(x, a, out, first),
        ShiftLeft => bitwise_shift_left(x, a, out, first),
        ShiftRight => bitwise_shift_right(x, a, out, first),
        Rotate => bitwise_rotate(x, a, b, c, out, first),
        Reverse => bitwise_reverse(x, a, b, out, first),
        Trim => bitwise_trim(x, out, first),
        FixnumToLimbs => fixnum_to_limbs(call.width, a, out, first),
        operation => unreachable!("{operation:?} writes no limbs"),
    }
}

pub fn call_value(call: &LimbCall) -> Value {
    let x = call.operands[0];
    match call.operation {
        BitCount => bitwise_bit_count(x),
        Length => bitwise_length(x),
        FirstBitSet => bitwise_first_bit_set(x),
        BitSet => bitwise_bit_set(x, call.numbers[0]),
        LimbsToFixnum => limbs_to_fixnum(call.width, x),
        operation => unreachable!("{operation:?} writes limbs"),
    }
}

pub fn call_fold(fold: &mut Fold, call: &FoldCall) -> FoldAnswer {
    let (refusal, place, value) = match *call {
        FoldCall::Open(settings) => {
            let reference::Fold { width, start, end, count, accumulator } = settings;
            let opened = fold.open(width, start, end, count, accumulator);
            (opened.refusal, opened.place, 0)
        }
        FoldCall::Chunk(bytes) => (fold.chunk(bytes).refusal, 0, 0),
        FoldCall::Read => {
            let read = fold.read();
            (read.refusal, 0, read.value)
        }
        FoldCall::Join { piece, n } => (fold.join(piece, n).refusal, 0, 0),
    };
    FoldAnswer { refusal, place, value }
}

pub fn call_rule(call: &RuleCall) -> described::RuleAnswer {
    match *call {
        RuleCall::Read(rule) => {
            let RuleReadAnswer { refusal, offset, width } = rule_read(rule);
            described::RuleAnswer { refusal, place: 0, offset, value: width as i64 }
        }
        RuleCall::Evaluate(rule, inputs) => {
            let sixteen: Result<&[i64; INPUTS], _> = inputs.try_into();
            let answer = sixteen.map_or_else(|_| rule_evaluate_any(rule, inputs), |inputs| rule_evaluate(rule, inputs));
            let RuleAnswer { refusal, place, offset, value } = answer;
            described::RuleAnswer { refusal, place, offset, value }
        }
    }
}

pub fn call_flonum(call: &FlonumCall) -> flonum_call::FlonumAnswer {
    let flonums = call.flonums.map(f64::from_bits);
    let x = flonums[0];
    let FlonumAnswer { refusal, kind, fixnum, flonum } = match call.operation {
        FlonumOperation::FixnumToFlonum => fixnum_to_flonum(call.width, call.fixnum),
        FlonumOperation::Floor => flfloor(x),
        FlonumOperation::Ceiling => flceiling(x),
        FlonumOperation::Truncate => fltruncate(x),
        FlonumOperation::Round => flround(x),
        FlonumOperation::Abs => flabs(x),
        FlonumOperation::Nan => flnan(x),
        FlonumOperation::Finite => flfinite(x),
        FlonumOperation::Bits => return flonum_call::FlonumAnswer::Bits(flonum_bits(x)),
        FlonumOperation::Extremes => {
            let Extremes { refusal, smallest, largest } = flextremes(call.count, flonums);
            let [smallest, largest] = [smallest, largest].map(f64::to_bits);
            return flonum_call::FlonumAnswer::Extremes { refusal, smallest, largest };
        }
    };
    flonum_call::FlonumAnswer::One { refusal, kind, fixnum, flonum: flonum.to_bits() }
}

/// The record of the C library that holds these numbers.
pub fn c_fold(fold: &reference::Fold) -> Fold {
    let reference::Fold { width, start, end, count, accumulator } = *fold;
    Fold { width, start, end, count, accumulator }
}

/// What the record of the C library holds.
pub fn plain_fold(fold: &Fold) -> reference::Fold {
    let Fold { width, start, end, count, accumulator } = *fold;
    reference::Fold { width, start, end, count, accumulator }
}
