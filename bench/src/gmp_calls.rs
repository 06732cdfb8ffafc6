//! The bitwise operations that GMP has no call for, by several of its calls. The result is left in `Scratch::result`.

use crate::gmp::Mpz;
use crate::inputs::Input;

/// More than the bits of any result and of any step towards it.
const BITS: u64 = 100_000;

/// Integers large enough for every result, so that no call allocates.
pub struct Scratch {
    pub result: Mpz,
    part: Mpz,
}

impl Scratch {
    pub fn new() -> Scratch {
        Scratch { result: Mpz::with_room(BITS), part: Mpz::with_room(BITS) }
    }
}

/// Bits of y where x has ones, of z where it has zeros: z xor (x and (y xor z)).
pub fn if_(i: &Input, scratch: &mut Scratch) {
    scratch.result.xor(&i.y.gmp, &i.z.gmp);
    scratch.result.and_assign(&i.x.gmp);
    scratch.result.xor_assign(&i.z.gmp);
}

pub fn copy_bit(i: &Input, scratch: &mut Scratch) {
    scratch.result.set(&i.x.gmp);
    if i.bit == 1 {
        scratch.result.setbit(i.position as u64);
    } else {
        scratch.result.clrbit(i.position as u64);
    }
}

pub fn bit_field(i: &Input, scratch: &mut Scratch) {
    scratch.part.fdiv_q_2exp(&i.x.gmp, i.start as u64);
    scratch.result.fdiv_r_2exp(&scratch.part, (i.end - i.start) as u64);
}

/// The result is put together from its highest part on: the bits above the field, the field, the bits below it.
pub fn copy_bit_field(i: &Input, scratch: &mut Scratch) {
    let (start, end) = (i.start as u64, i.end as u64);
    scratch.result.fdiv_q_2exp(&i.x.gmp, end);
    scratch.part.fdiv_r_2exp(&i.y.gmp, end - start);
    append(scratch, end - start);
    scratch.part.fdiv_r_2exp(&i.x.gmp, start);
    append(scratch, start);
}

/// As in copy-bit-field: the bits above the field, its lower bits, its upper bits, the bits below the field.
pub fn rotate(i: &Input, scratch: &mut Scratch) {
    let (start, end, count) = (i.start as u64, i.end as u64, i.count as u64);
    scratch.result.fdiv_q_2exp(&i.x.gmp, end);
    scratch.part.fdiv_q_2exp(&i.x.gmp, start);
    scratch.part.fdiv_r_2exp_assign(end - start - count);
    append(scratch, end - start - count);
    scratch.part.fdiv_q_2exp(&i.x.gmp, end - count);
    scratch.part.fdiv_r_2exp_assign(count);
    append(scratch, count);
    scratch.part.fdiv_r_2exp(&i.x.gmp, start);
    append(scratch, start);
}

/// Puts the part, which has so many bits, under the result. A sum is quicker than an inclusive or here.
fn append(scratch: &mut Scratch, size: u64) {
    scratch.result.mul_2exp_assign(size);
    scratch.result.add_assign(&scratch.part);
}

/// The shifts in one: to the right where the distance is negative.
pub fn shift(i: &Input, scratch: &mut Scratch) {
    let distance = i.signed_distance.unsigned_abs();
    if i.signed_distance < 0 {
        scratch.result.fdiv_q_2exp(&i.half.gmp, distance);
    } else {
        scratch.result.mul_2exp(&i.half.gmp, distance);
    }
}

/// GMP counts the ones of integers that are not negative.
pub fn bit_count(x: &Mpz, scratch: &mut Scratch) -> i64 {
    if x.is_negative() {
        scratch.part.com(x);
        !scratch.part.popcount()
    } else {
        x.popcount()
    }
}

/// GMP takes the length of the absolute value: one too many for 0 and for a negative power of two.
pub fn length(i: &Input, _: &mut Scratch) -> i64 {
    let x = &i.x.gmp;
    let bits = x.bits();
    if x.is_zero() || x.is_negative() && x.scan1() == bits - 1 {
        bits - 1
    } else {
        bits
    }
}
