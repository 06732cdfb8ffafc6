//! The rows M1 to M14: at width 24 and, where the limb part has the operation, there as well.

use super::{call, small};
use crate::operation::Operation::*;
use crate::reference::limbs::result;
use crate::refusal::{DOMAIN, SIZE};

#[test]
fn m1_rotate() {
    assert_eq!(call(24, 40, &[0x1234, 4, 12, 4]), (0, 0x1324, 0));
    assert_eq!(small(Rotate, &[0x1234], &[4, 12, 4]), Ok(0x1324));
}

#[test]
fn m2_reverse() {
    assert_eq!(call(24, 41, &[82, 1, 4]), (0, 88, 0));
    assert_eq!(small(Reverse, &[82], &[1, 4]), Ok(88));
}

#[test]
fn m3_first_bit_set() {
    assert_eq!(call(24, 32, &[0]), (0, -1, 0));
    assert_eq!(call(24, 32, &[-4]), (0, 2, 0));
    assert_eq!(small(FirstBitSet, &[0], &[]), Ok(-1));
    assert_eq!(small(FirstBitSet, &[-4], &[]), Ok(2));
}

#[test]
fn m4_bit_count() {
    assert_eq!(call(24, 30, &[-2]), (0, -2, 0));
    assert_eq!(call(24, 30, &[-1]), (0, -1, 0));
    assert_eq!(small(BitCount, &[-2], &[]), Ok(-2));
    assert_eq!(small(BitCount, &[-1], &[]), Ok(-1));
}

#[test]
fn m5_shift() {
    assert_eq!(call(24, 37, &[-23, -2]), (0, -6, 0));
    assert_eq!(small(Shift, &[-23], &[-2]), Ok(-6));
}

#[test]
fn m6_length() {
    assert_eq!(call(24, 31, &[-256]), (0, 8, 0));
    assert_eq!(call(24, 31, &[-257]), (0, 9, 0));
    assert_eq!(small(Length, &[-256], &[]), Ok(8));
    assert_eq!(small(Length, &[-257], &[]), Ok(9));
}

#[test]
fn m7_to_m9_at_the_limits_of_width_24() {
    assert_eq!(call(24, 15, &[-8_388_608]), (DOMAIN, 0, 0));
    assert_eq!(call(24, 22, &[8_388_607, 1, 0]), (0, -8_388_608, 1));
    assert_eq!(call(24, 24, &[8_388_607; 3]), (0, -8_388_608, 4_194_304));
}

#[test]
fn m10_division() {
    assert_eq!(call(24, 16, &[-7, 2]), (0, -4, 0));
    assert_eq!(call(24, 17, &[-7, 2]), (0, 1, 0));
    assert_eq!(call(24, 18, &[-7, 2]), (0, -4, 1));
    assert_eq!(call(24, 19, &[-7, 2]), (0, -3, 0));
    assert_eq!(call(24, 20, &[-7, 2]), (0, -1, 0));
    assert_eq!(call(24, 21, &[-7, 2]), (0, -3, -1));
}

#[test]
fn m11_copy_bit_writes_the_sign() {
    assert_eq!(call(24, 34, &[0, 23, 1]), (0, -8_388_608, 0));
}

#[test]
fn m12_least_fixnum_by_minus_one() {
    assert_eq!(call(24, 16, &[-8_388_608, -1]), (SIZE, 0, 0));
    assert_eq!(call(24, 17, &[-8_388_608, -1]), (0, 0, 0));
    assert_eq!(call(24, 18, &[-8_388_608, -1]), (SIZE, 0, 0));
    assert_eq!(call(24, 20, &[-8_388_608, -1]), (0, 0, 0));
    assert_eq!(call(24, 21, &[-8_388_608, -1]), (SIZE, 0, 0));
}

#[test]
fn m13_not() {
    assert_eq!(result(Not, &[&[0x8000_0000, 0]], &[]), Ok(vec![0x7FFF_FFFF, 0xFFFF_FFFF]));
}

#[test]
fn m14_and() {
    assert_eq!(result(And, &[&[0xFFFF_FFFF], &[0, 1]], &[]), Ok(vec![0, 1]));
}
