//! Padded operands, which every limb call but trim refuses, and trim.

use super::small;
use crate::operation::Operation::{self, *};
use crate::random::Random;
use crate::random_arguments::limbs::accepted_operand;
use crate::reference::conversion::limbs_to_fixnum;
use crate::reference::limbs::{result, value};
use crate::reference::output::write;
use crate::refusal::{DOMAIN, OPERAND, ROOM, SIZE, WIDTH};
use crate::spellings::padded;

const ONES: u32 = u32::MAX;
const TOP: u32 = 0x8000_0000;
const BELOW_TOP: u32 = 0x7FFF_FFFF;

/// Integers in the shortest form: 0, -1, 2^31 and -2^31 among them.
const SHORTEST: [&[u32]; 12] = [
    &[0],
    &[ONES],
    &[5],
    &[TOP],
    &[BELOW_TOP],
    &[TOP, 0],
    &[BELOW_TOP, ONES],
    &[0, 1],
    &[ONES, TOP],
    &[0, TOP, 0],
    &[ONES, BELOW_TOP, ONES],
    &[0, 0, ONES],
];

const PADDED: [&[u32]; 10] = [
    &[0, 0],
    &[ONES, ONES],
    &[5, 0],
    &[TOP, ONES],
    &[BELOW_TOP, 0],
    &[TOP, 0, 0],
    &[BELOW_TOP, ONES, ONES],
    &[0, 0, 0],
    &[0, TOP, ONES],
    &[0, BELOW_TOP, 0],
];

/// The refusal of a call, if any.
fn refusal(operation: Operation, operands: &[&[u32]], numbers: [i64; 3]) -> Option<u64> {
    let numbers = &numbers[..operation.numbers()];
    if operation.writes() {
        result(operation, operands, numbers).err()
    } else {
        value(operation, operands, numbers).err()
    }
}

/// Every limb call but trim.
fn calls() -> impl Iterator<Item = Operation> {
    Operation::ALL.into_iter().filter(|&operation| operation != Trim && !operation.takes_width())
}

fn trim(limbs: &[u32]) -> Result<Vec<u32>, u64> {
    result(Trim, &[limbs], &[])
}

#[test]
fn every_call_takes_the_shortest_form_alone() {
    for operation in calls() {
        let taken = operation.operands();
        for x in SHORTEST {
            assert_eq!(refusal(operation, &[x; 3][..taken], [0, 1, 1]), None, "{operation:?} {x:x?}");
        }
        for x in PADDED {
            for place in 0..taken {
                let mut operands = [SHORTEST[6]; 3];
                operands[place] = x;
                assert_eq!(refusal(operation, &operands[..taken], [0, 1, 1]), Some(OPERAND), "{operation:?} {x:x?}");
            }
        }
    }
}

/// Whatever else is wrong with the call.
#[test]
fn a_padded_operand_is_refused_first() {
    for operation in calls().filter(|operation| operation.numbers() > 0) {
        let refused = |x| refusal(operation, &[x; 3][..operation.operands()], [i64::MIN; 3]);
        assert_eq!(refused(&[1]), (operation != Shift).then_some(DOMAIN));
        assert_eq!(refused(&[1, 0]), Some(OPERAND));
    }
    assert_eq!(refusal(ShiftLeft, &[&[1]], [i64::MAX; 3]), Some(SIZE));
    assert_eq!(refusal(ShiftLeft, &[&[1, 0]], [i64::MAX; 3]), Some(OPERAND));
    assert_eq!(write(&result(Not, &[&[ONES, ONES]], &[]), &mut [], 0), Err(OPERAND));
    assert_eq!(write(&result(Not, &[&[ONES]], &[]), &mut [], 0), Err(ROOM));
}

#[test]
fn conversion() {
    assert_eq!(limbs_to_fixnum(24, &[0]), Ok(0));
    assert_eq!(limbs_to_fixnum(24, &[ONES]), Ok(-1));
    assert_eq!(limbs_to_fixnum(32, &[TOP]), Ok(-1 << 31));
    assert_eq!(limbs_to_fixnum(33, &[TOP, 0]), Ok(1 << 31));
    for x in PADDED {
        for (width, expected) in [(23, WIDTH), (24, OPERAND), (64, OPERAND), (65, WIDTH)] {
            assert_eq!(limbs_to_fixnum(width, x), Err(expected), "width {width}: {x:x?}");
        }
    }
    // 2^64, which is no fixnum.
    assert_eq!(limbs_to_fixnum(64, &[0, 0, 1]), Err(SIZE));
    assert_eq!(limbs_to_fixnum(64, &[0, 0, 1, 0]), Err(OPERAND));
}

#[test]
fn trim_writes_the_shortest_form() {
    for x in SHORTEST {
        assert_eq!(trim(x), Ok(x.to_vec()));
        for length in x.len()..x.len() + 5 {
            assert_eq!(trim(&padded(x, length)), Ok(x.to_vec()));
        }
        assert_eq!(trim(&padded(x, 1024)), Ok(x.to_vec()));
    }
    assert_eq!(trim(&[0, 0, 0]), Ok(vec![0]));
    assert_eq!(trim(&[ONES; 1024]), Ok(vec![ONES]));
    assert_eq!(trim(&[TOP, 0, 0]), Ok(vec![TOP, 0]));
    assert_eq!(trim(&[TOP, ONES]), Ok(vec![TOP]));
    assert_eq!(trim(&[BELOW_TOP, ONES, ONES]), Ok(vec![BELOW_TOP, ONES]));
}

#[test]
fn trim_refuses_by_length_and_room() {
    for length in [0, 1025, 2048] {
        assert_eq!(trim(&vec![0; length]), Err(OPERAND));
        assert_eq!(trim(&vec![7; length]), Err(OPERAND));
    }
    let mut out = [1, 2, 3];
    let trimmed = trim(&[TOP, 0, 0, 0]);
    assert_eq!(write(&trimmed, &mut out, 2), Err(ROOM));
    assert_eq!(write(&trimmed, &mut out, u64::MAX), Err(ROOM));
    assert_eq!(out, [1, 2, 3]);
    assert_eq!(write(&trimmed, &mut out, 1), Ok(2));
    assert_eq!(out, [1, TOP, 0]);
}

/// The integer of up to three limbs as two's complement defines it.
fn meaning(limbs: &[u32]) -> i128 {
    let sum: i128 = limbs.iter().enumerate().map(|(i, &limb)| i128::from(limb) << (32 * i)).sum();
    let negative = limbs.last().is_some_and(|&last| last >= TOP);
    sum - if negative { 1 << (32 * limbs.len()) } else { 0 }
}

/// An operand is refused exactly where one limb less is enough for its integer.
#[test]
fn by_meaning() {
    let limbs = [0, 1, BELOW_TOP, TOP, ONES - 1, ONES];
    for number in 0..6usize.pow(3) {
        let three = [limbs[number % 6], limbs[number / 6 % 6], limbs[number / 36]];
        for length in 1..=3 {
            let x = &three[..length];
            let (n, limit) = (meaning(x), 1i128 << (32 * length - 32) >> 1);
            let enough = length > 1 && -limit <= n && n < limit;
            assert_eq!(value(Length, &[x], &[]).is_err(), enough, "{x:x?}");
            let trimmed = trim(x).expect("1 to 3 limbs");
            assert_eq!((meaning(&trimmed), trimmed.len() < length), (n, enough), "{x:x?}");
        }
    }
}

#[test]
fn one_integer_one_spelling() {
    let mut random = Random::new(12);
    for _ in 0..200 {
        let x = accepted_operand(&mut random);
        for length in (x.len()..x.len() + 4).chain([1023, 1024]).filter(|length| (x.len()..=1024).contains(length)) {
            let spelling = padded(&x, length);
            assert_eq!(trim(&spelling), Ok(x.clone()));
            assert_eq!(value(BitCount, &[&spelling], &[]).is_ok(), length == x.len());
        }
    }
}

#[test]
fn results_are_accepted() {
    for n in [0, -1, 5, 1 << 31, -1 << 31, 1 << 63, -(1 << 63) - 1] {
        assert_eq!(small(Not, &[!n], &[]), Ok(n));
        assert_eq!(small(Trim, &[n], &[]), Ok(n));
    }
}
