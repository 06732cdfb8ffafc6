//! Folds worked out by hand from the rules: what each byte does, what each refusal leaves, and what a join comes to.

use crate::fixnum_arguments::{greatest, least};
use crate::reference::fold::{Fold, ZERO};
use crate::refusal::{DOMAIN, NOT_FIXNUM, UNOPENED, WIDTH};

fn fold(width: u64, start: i64, end: i64, count: i64, accumulator: i64) -> Fold {
    Fold { width, start, end, count, accumulator }
}

/// What an opening with these settings and one chunk read.
fn identifier(settings: Fold, bytes: &[u8]) -> i64 {
    let mut record = ZERO;
    assert_eq!(record.open(settings), Ok(()), "{settings:?}");
    assert_eq!(record.chunk(bytes), Ok(()));
    assert_eq!(record, Fold { accumulator: record.accumulator, ..settings });
    record.read().expect("an open record")
}

/// 0 rotated is 0, xor 0x01 is 0x01; rotated 0x02, xor 0x80 is 0x82; rotated in 8 bits 0x05, xor 0xFF is 0xFA.
#[test]
fn rotate_and_then_xor() {
    let settings = fold(24, 0, 8, 1, 0);
    assert_eq!(identifier(settings, &[]), 0);
    assert_eq!(identifier(settings, &[0x01]), 0x01);
    assert_eq!(identifier(settings, &[0x01, 0x80]), 0x82);
    assert_eq!(identifier(settings, &[0x01, 0x80, 0xFF]), 0xFA);
    assert_eq!(identifier(settings, &[0xFF, 0x80, 0x01]), 0xFF);
}

/// Row M1: 0x1234 rotated by 4 from 4 to 12 is 0x1324.
#[test]
fn a_field_inside() {
    let settings = fold(24, 4, 12, 4, 0x1234);
    assert_eq!(identifier(settings, &[0]), 0x1324);
    assert_eq!(identifier(settings, &[0x24]), 0x1300);
    assert_eq!(identifier(settings, &[0, 0]), 0x1234);
}

#[test]
fn bytes_have_no_sign() {
    for width in [24, 32, 63, 64] {
        assert_eq!(identifier(fold(width, 0, 0, 0, 0), &[0x80]), 128);
        assert_eq!(identifier(fold(width, 0, 0, 0, -1), &[0xFF]), -256);
    }
}

/// -256 has the ones 8 to 22 below its sign. Moved by 5 in 23 bits they are 13 to 22 and 0 to 4: -8192 + 31.
#[test]
fn the_sign_stays() {
    let settings = fold(24, 0, 23, 5, -1);
    assert_eq!(identifier(settings, &[0xFF]), -256);
    assert_eq!(identifier(settings, &[0xFF, 0]), -8161);
    assert_eq!(identifier(fold(64, 0, 63, 1, i64::MIN), &[1, 0]), i64::MIN + 2);
}

#[test]
fn an_empty_field_and_a_full_rotation_leave_the_xor_of_all_bytes() {
    for (start, end, count) in [(0, 0, 0), (23, 23, 0), (5, 9, 4), (0, 23, 23), (5, 9, 0)] {
        assert_eq!(identifier(fold(24, start, end, count, 0x100), &[0x0F, 0xF0, 0x3C]), 0x1C3);
    }
}

/// The number, the place, and a record that is zero whatever it was.
#[test]
fn refused_openings() {
    let beyond = greatest(24) + 1;
    let cases = [
        (fold(23, 0, 0, 0, 0), (WIDTH, 0)),
        (fold(65, -1, -1, -1, i64::MAX), (WIDTH, 0)),
        (fold(0, 0, 0, 0, 0), (WIDTH, 0)),
        (fold(24, -1, 24, -1, beyond), (NOT_FIXNUM, 1)),
        (fold(24, beyond, 24, -1, 0), (NOT_FIXNUM, 2)),
        (fold(24, -1, least(24) - 1, beyond, 0), (NOT_FIXNUM, 3)),
        (fold(24, -1, 0, i64::MIN, 0), (NOT_FIXNUM, 4)),
        (fold(24, -1, 24, -1, 0), (DOMAIN, 2)),
        (fold(24, 24, 24, 0, 0), (DOMAIN, 2)),
        (fold(24, 5, 4, -1, 0), (DOMAIN, 3)),
        (fold(24, 5, 24, 0, 0), (DOMAIN, 3)),
        (fold(24, 5, 8, 4, 0), (DOMAIN, 4)),
        (fold(24, 5, 8, -1, 0), (DOMAIN, 4)),
        (fold(24, 5, 5, 1, 0), (DOMAIN, 4)),
        (fold(64, 0, 64, 0, i64::MIN), (DOMAIN, 3)),
    ];
    for (settings, expected) in cases {
        for mut record in [ZERO, fold(24, 0, 8, 1, 5), fold(99, 1, 2, 3, 4)] {
            assert_eq!(record.open(settings), Err(expected), "{settings:?}");
            assert_eq!(record, ZERO);
        }
    }
}

#[test]
fn an_accepted_opening_starts_afresh() {
    let settings = fold(30, 2, 9, 7, -3);
    for mut record in [ZERO, fold(24, 0, 8, 1, 5), fold(u64::MAX, -1, -1, -1, -1)] {
        assert_eq!(record.open(settings), Ok(()));
        assert_eq!(record, settings);
    }
}

/// Each of these records fails one test of opening; nothing can be done with it, and nothing changes.
#[test]
fn unopened_records() {
    let beyond = greatest(24) + 1;
    let forged = [
        ZERO,
        fold(23, 0, 0, 0, 0),
        fold(65, 0, 0, 0, 0),
        fold(24, 0, 0, 0, beyond),
        fold(24, 0, 0, 0, least(24) - 1),
        fold(24, -1, 0, 0, 0),
        fold(24, 9, 8, 0, 0),
        fold(24, 0, 24, 0, 0),
        fold(24, 8, 8, 1, 0),
        fold(24, 0, 8, 9, 0),
    ];
    for record in forged {
        let mut after = record;
        assert_eq!(after.chunk(&[]), Err(UNOPENED));
        assert_eq!(after.chunk(&[1]), Err(UNOPENED));
        assert_eq!(after.read(), Err(UNOPENED));
        assert_eq!(after.join(0, 0), Err(UNOPENED));
        assert_eq!(after.join(i64::MAX, 1), Err(UNOPENED));
        assert_eq!(after, record);
    }
}

/// The record at the limits is open though no call has opened it.
#[test]
fn records_that_nobody_opened() {
    for mut record in [fold(24, 0, 23, 23, least(24)), fold(64, 63, 63, 0, i64::MAX), fold(24, 8, 8, 0, 0)] {
        assert_eq!(record.read(), Ok(record.accumulator));
        assert_eq!(record.chunk(&[]), Ok(()));
        assert_eq!(record.join(0, 0), Ok(()));
    }
}

/// From 0 the bytes give 0x10, rotated by 3 0x80, xor 0x01 is 0x81. Six bits on, 0x01 is 0x40, xor 0x81 is 0xC1. At one go:
/// 0x08 xor 0x10 is 0x18, rotated 0xC0, xor 0x01 is 0xC1.
#[test]
fn a_joined_piece() {
    let bytes = [0x10, 0x01];
    assert_eq!(identifier(fold(24, 0, 8, 3, 0), &bytes), 0x81);
    assert_eq!(identifier(fold(24, 0, 8, 3, 1), &bytes), 0xC1);
    let mut record = fold(24, 0, 8, 3, 1);
    assert_eq!(record.join(0x81, 2), Ok(()));
    assert_eq!(record, fold(24, 0, 8, 3, 0xC1));
}

/// What 1 becomes where n zero bytes are joined to it.
fn one_joined(width: u64, start: i64, end: i64, count: i64, n: u64) -> i64 {
    let mut record = fold(width, start, end, count, 1);
    assert_eq!(record.join(0, n), Ok(()));
    record.accumulator
}

/// 2^64 - 1 is 15 mod 62, and 61 times that is -15, so 47. The product taken mod 2^64 would give 17.
#[test]
fn a_join_of_very_many_bytes() {
    assert_eq!(one_joined(64, 0, 62, 61, u64::MAX), 1 << 47);
    assert_eq!(one_joined(64, 0, 63, 63, u64::MAX), 1);
    assert_eq!(one_joined(24, 0, 0, 0, u64::MAX), 1);
    assert_eq!(one_joined(24, 0, 23, 1, 23), 1);
    assert_eq!(one_joined(24, 0, 23, 1, 22), 1 << 22);
    assert_eq!(one_joined(24, 0, 23, 0, u64::MAX), 1);
}

#[test]
fn refused_joins() {
    for piece in [greatest(24) + 1, least(24) - 1, i64::MIN, i64::MAX] {
        let mut record = fold(24, 0, 8, 3, 1);
        assert_eq!(record.join(piece, 1), Err(NOT_FIXNUM));
        assert_eq!(record, fold(24, 0, 8, 3, 1));
    }
    let mut record = fold(64, 0, 8, 3, 1);
    assert_eq!(record.join(i64::MIN, 1), Ok(()));
    assert_eq!(record.accumulator, i64::MIN + 8);
}
