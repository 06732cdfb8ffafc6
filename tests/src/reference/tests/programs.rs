//! The cases that are to be run by a program, and the errors that look right.

use super::{call, small};
use crate::operation::Operation::*;
use crate::reference::{limbs::result, output::write};
use crate::refusal::{DOMAIN, ROOM, SIZE};

#[test]
fn fixnum_shifts_at_width_24() {
    assert_eq!(call(24, 37, &[1, 22]), (0, 4_194_304, 0));
    assert_eq!(call(24, 37, &[1, 23]), (SIZE, 0, 0));
    assert_eq!(call(24, 37, &[1, 24]), (DOMAIN, 0, 0));
    assert_eq!(call(24, 37, &[-1, 23]), (0, -8_388_608, 0));
}

#[test]
fn room_one_limb_short() {
    let not = result(Not, &[&[0x8000_0000, 0]], &[]);
    let mut out = [1, 2, 3];
    assert_eq!(write(&not, &mut out, 2), Err(ROOM));
    assert_eq!(out, [1, 2, 3]);
    assert_eq!(write(&not, &mut out, 1), Ok(2));
    assert_eq!(out, [1, 0x7FFF_FFFF, 0xFFFF_FFFF]);
}

#[test]
fn limb_shifts_by_the_extremes() {
    assert_eq!(small(Shift, &[0], &[i64::MAX]), Ok(0));
    assert_eq!(small(Shift, &[-5], &[i64::MIN]), Ok(-1));
}

#[test]
fn limb_shifts_at_the_longest_result() {
    assert_eq!(result(ShiftLeft, &[&[1]], &[32_767]), Err(SIZE));
    let least = result(ShiftLeft, &[&[0xFFFF_FFFF]], &[32_767]).expect("-2^32767 has 1,024 limbs");
    assert_eq!((least.len(), least[1022], least[1023]), (1024, 0, 0x8000_0000));
    assert_eq!(result(ShiftLeft, &[&[0xFFFF_FFFF]], &[32_768]), Err(SIZE));
}

#[test]
fn a_product_that_wraps_at_64_bits() {
    let x = 1 << 32;
    for width in [62, 63, 64] {
        assert_eq!(call(width, 14, &[x, x]), (SIZE, 0, 0));
        assert_eq!(call(width, 14, &[x, x << 1]), (SIZE, 0, 0));
        assert_eq!(call(width, 14, &[x + 1, x - 1]), (SIZE, 0, 0));
    }
}
