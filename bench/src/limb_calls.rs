//! The limb calls: ours, GMP's and plain Rust's.

use crate::binding as ours;
use crate::gmp_calls::{self, Scratch};
use crate::inputs::Input;
use crate::limb_case::{answering, writing, Inputs};
use crate::plain_limbs as plain;
use crate::timing::Case;

/// The calls, on inputs of one length.
pub fn calls(inputs: &Inputs) -> Vec<Case> {
    let mut cases = logical(inputs);
    cases.extend(fields(inputs));
    cases.extend(shifts(inputs));
    cases.extend(numbers(inputs));
    cases
}

/// Results that are much shorter than their operands.
pub fn short_results(inputs: &Inputs) -> Vec<Case> {
    vec![
        writing(
            "bitwise-xor of x and x",
            inputs,
            |i, out| ours::bitwise_xor(&i.x.limbs, &i.x.limbs, out, 0),
            Some(|i: &Input, scratch: &mut Scratch| scratch.result.xor(&i.x.gmp, &i.x.gmp)),
            |i, out| plain::xor(&i.x.limbs, &i.x.limbs, out),
        ),
        writing(
            "bitwise-and of x and one limb",
            inputs,
            |i, out| ours::bitwise_and(&i.x.limbs, &i.short.limbs, out, 0),
            Some(|i: &Input, scratch: &mut Scratch| scratch.result.and(&i.x.gmp, &i.short.gmp)),
            |i, out| plain::and(&i.x.limbs, &i.short.limbs, out),
        ),
        writing(
            "trim of one limb and padding",
            inputs,
            |i, out| ours::bitwise_trim(&i.padded, out, 0),
            None::<fn(&Input, &mut Scratch)>,
            |i, out| plain::trim(&i.padded, out),
        ),
    ]
}

fn logical(inputs: &Inputs) -> Vec<Case> {
    vec![
        writing(
            "bitwise-not",
            inputs,
            |i, out| ours::bitwise_not(&i.x.limbs, out, 0),
            Some(|i: &Input, scratch: &mut Scratch| scratch.result.com(&i.x.gmp)),
            |i, out| plain::not(&i.x.limbs, out),
        ),
        writing(
            "bitwise-and",
            inputs,
            |i, out| ours::bitwise_and(&i.x.limbs, &i.y.limbs, out, 0),
            Some(|i: &Input, scratch: &mut Scratch| scratch.result.and(&i.x.gmp, &i.y.gmp)),
            |i, out| plain::and(&i.x.limbs, &i.y.limbs, out),
        ),
        writing(
            "bitwise-ior",
            inputs,
            |i, out| ours::bitwise_ior(&i.x.limbs, &i.y.limbs, out, 0),
            Some(|i: &Input, scratch: &mut Scratch| scratch.result.ior(&i.x.gmp, &i.y.gmp)),
            |i, out| plain::ior(&i.x.limbs, &i.y.limbs, out),
        ),
        writing(
            "bitwise-xor",
            inputs,
            |i, out| ours::bitwise_xor(&i.x.limbs, &i.y.limbs, out, 0),
            Some(|i: &Input, scratch: &mut Scratch| scratch.result.xor(&i.x.gmp, &i.y.gmp)),
            |i, out| plain::xor(&i.x.limbs, &i.y.limbs, out),
        ),
        writing(
            "bitwise-if",
            inputs,
            |i, out| ours::bitwise_if(&i.x.limbs, &i.y.limbs, &i.z.limbs, out, 0),
            Some(gmp_calls::if_),
            |i, out| plain::if_(&i.x.limbs, &i.y.limbs, &i.z.limbs, out),
        ),
        writing(
            "trim of x, which has no padding",
            inputs,
            |i, out| ours::bitwise_trim(&i.x.limbs, out, 0),
            None::<fn(&Input, &mut Scratch)>,
            |i, out| plain::trim(&i.x.limbs, out),
        ),
    ]
}

fn fields(inputs: &Inputs) -> Vec<Case> {
    vec![
        writing(
            "bitwise-copy-bit",
            inputs,
            |i, out| ours::bitwise_copy_bit(&i.x.limbs, i.position, i.bit, out, 0),
            Some(gmp_calls::copy_bit),
            |i, out| plain::copy_bit(&i.x.limbs, i.position as usize, i.bit as u32, out),
        ),
        writing(
            "bitwise-bit-field",
            inputs,
            |i, out| ours::bitwise_bit_field(&i.x.limbs, i.start, i.end, out, 0),
            Some(gmp_calls::bit_field),
            |i, out| plain::bit_field(&i.x.limbs, i.start as usize, i.end as usize, out),
        ),
        writing(
            "bitwise-copy-bit-field",
            inputs,
            |i, out| ours::bitwise_copy_bit_field(&i.x.limbs, i.start, i.end, &i.y.limbs, out, 0),
            Some(gmp_calls::copy_bit_field),
            |i, out| plain::copy_bit_field(&i.x.limbs, i.start as usize, i.end as usize, &i.y.limbs, out),
        ),
        writing(
            "bitwise-rotate-bit-field",
            inputs,
            |i, out| ours::bitwise_rotate(&i.x.limbs, i.start, i.end, i.count, out, 0),
            Some(gmp_calls::rotate),
            |i, out| plain::rotate(&i.x.limbs, i.start as usize, i.end as usize, i.count as usize, out),
        ),
        writing(
            "bitwise-reverse-bit-field",
            inputs,
            |i, out| ours::bitwise_reverse(&i.x.limbs, i.start, i.end, out, 0),
            None::<fn(&Input, &mut Scratch)>,
            |i, out| plain::reverse(&i.x.limbs, i.start as usize, i.end as usize, out),
        ),
    ]
}

fn shifts(inputs: &Inputs) -> Vec<Case> {
    vec![
        writing(
            "bitwise-arithmetic-shift",
            inputs,
            |i, out| ours::bitwise_shift(&i.half.limbs, i.signed_distance, out, 0),
            Some(gmp_calls::shift),
            |i, out| plain::shift(&i.half.limbs, i.signed_distance, out),
        ),
        writing(
            "bitwise-arithmetic-shift-left",
            inputs,
            |i, out| ours::bitwise_shift_left(&i.half.limbs, i.distance, out, 0),
            Some(|i: &Input, scratch: &mut Scratch| scratch.result.mul_2exp(&i.half.gmp, i.distance as u64)),
            |i, out| plain::shift_left(&i.half.limbs, i.distance as usize, out),
        ),
        writing(
            "bitwise-arithmetic-shift-right",
            inputs,
            |i, out| ours::bitwise_shift_right(&i.x.limbs, i.distance, out, 0),
            Some(|i: &Input, scratch: &mut Scratch| scratch.result.fdiv_q_2exp(&i.x.gmp, i.distance as u64)),
            |i, out| plain::shift_right(&i.x.limbs, i.distance as usize, out),
        ),
    ]
}

fn numbers(inputs: &Inputs) -> Vec<Case> {
    vec![
        answering(
            "bitwise-bit-count",
            inputs,
            |i| ours::bitwise_bit_count(&i.x.limbs),
            |i, scratch| gmp_calls::bit_count(&i.x.gmp, scratch),
            |i| plain::bit_count(&i.x.limbs),
        ),
        answering(
            "bitwise-length",
            inputs,
            |i| ours::bitwise_length(&i.x.limbs),
            gmp_calls::length,
            |i| plain::length(&i.x.limbs),
        ),
        answering(
            "bitwise-first-bit-set",
            inputs,
            |i| ours::bitwise_first_bit_set(&i.x.limbs),
            |i, _| i.x.gmp.scan1(),
            |i| plain::first_bit_set(&i.x.limbs),
        ),
        answering(
            "bitwise-bit-set?",
            inputs,
            |i| ours::bitwise_bit_set(&i.x.limbs, i.position),
            |i, _| i.x.gmp.tstbit(i.position as u64),
            |i| plain::bit_set(&i.x.limbs, i.position as usize),
        ),
    ]
}
