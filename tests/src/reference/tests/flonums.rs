//! The flonum calls on cases of R6RS and of document 02, with bits that are worked out by hand; and what document 02
//! says of fixnum->flonum, over whole numbers.

use crate::flonum_call::FlonumOperation::{self, *};
use crate::flonum_call::{FlonumAnswer, FlonumCall};
use crate::flonum_values::{FIRST_WHOLE, GREATEST, HALF, LAST_HALF, ONE, SMALLEST};
use crate::random::Random;
use crate::random_arguments::flonum::fixnum;
use crate::reference::flonum::conversion::fixnum_to_flonum;
use crate::reference::flonum::extremes::extremes;
use crate::reference::flonum::{is_negative, significand_and_places, INFINITY, NAN, SIGN};
use crate::refusal::{COUNT, NOT_FIXNUM, WIDTH};

const TWO: u64 = 0x4000_0000_0000_0000;
const ONE_AND_A_HALF: u64 = 0x3FF8_0000_0000_0000;
const TWO_AND_A_HALF: u64 = 0x4004_0000_0000_0000;
const THREE: u64 = 0x4008_0000_0000_0000;

fn rounded(x: u64) -> [u64; 4] {
    FlonumOperation::ROUNDINGS.map(|operation| match FlonumCall::unary(operation, x).answer() {
        FlonumAnswer::One { refusal: 0, kind: 2, fixnum: 0, flonum } => flonum,
        other => panic!("{other:x?}"),
    })
}

fn question(operation: FlonumOperation, x: u64) -> i64 {
    match FlonumCall::unary(operation, x).answer() {
        FlonumAnswer::One { refusal: 0, kind: 1, fixnum, flonum: 0 } => fixnum,
        other => panic!("{other:x?}"),
    }
}

/// Floor, ceiling, truncate and round.
#[test]
fn roundings() {
    let cases = [
        (0, [0; 4]),
        (SMALLEST, [0, ONE, 0, 0]),
        (HALF - 1, [0, ONE, 0, 0]),
        (HALF, [0, ONE, 0, 0]),
        (HALF + 1, [0, ONE, 0, ONE]),
        (ONE - 1, [0, ONE, 0, ONE]),
        (ONE, [ONE; 4]),
        (ONE + 1, [ONE, TWO, ONE, ONE]),
        (ONE_AND_A_HALF, [ONE, TWO, ONE, TWO]),
        (TWO_AND_A_HALF, [TWO, THREE, TWO, TWO]),
        (LAST_HALF, [LAST_HALF - 1, FIRST_WHOLE, LAST_HALF - 1, FIRST_WHOLE]),
        (FIRST_WHOLE + 1, [FIRST_WHOLE + 1; 4]),
        (GREATEST, [GREATEST; 4]),
        (INFINITY, [INFINITY; 4]),
    ];
    for (x, expected @ [floor, ceiling, truncate, round]) in cases {
        assert_eq!(rounded(x), expected, "{x:x}");
        let opposite = [ceiling, floor, truncate, round].map(|answer| answer | SIGN);
        assert_eq!(rounded(x | SIGN), opposite, "-{x:x}");
    }
}

#[test]
fn nans() {
    for x in [NAN, NAN + 1, INFINITY + 1, u64::MAX, SIGN | NAN, SIGN | INFINITY | 1] {
        assert_eq!(rounded(x), [NAN; 4]);
        assert_eq!(FlonumCall::unary(Bits, x).answer(), FlonumAnswer::Bits(NAN));
        assert_eq!([question(Nan, x), question(Finite, x)], [1, 0]);
        assert_eq!(extremes(2, [ONE, x, ONE, ONE]), Ok((NAN, NAN)));
        assert_eq!(extremes(1, [ONE, x, x, x]), Ok((ONE, ONE)));
    }
}

#[test]
fn questions() {
    for x in [0, SIGN, SMALLEST, ONE, GREATEST, SIGN | GREATEST] {
        assert_eq!([question(Nan, x), question(Finite, x)], [0, 1]);
    }
    for x in [INFINITY, SIGN | INFINITY] {
        assert_eq!([question(Nan, x), question(Finite, x)], [0, 0]);
    }
}

#[test]
fn smallest_and_largest() {
    assert_eq!(extremes(2, [0, SIGN, ONE, ONE]), Ok((0, 0)));
    assert_eq!(extremes(2, [SIGN, 0, ONE, ONE]), Ok((SIGN, SIGN)));
    assert_eq!(extremes(4, [ONE, SIGN | ONE, SIGN | INFINITY, TWO]), Ok((SIGN | INFINITY, TWO)));
    assert_eq!(extremes(3, [SIGN | TWO, SIGN | ONE, SIGN | THREE, ONE]), Ok((SIGN | THREE, SIGN | ONE)));
    assert_eq!(extremes(3, [SMALLEST, 0, SIGN, ONE]), Ok((0, SMALLEST)));
    for count in [0, 5, u64::MAX] {
        assert_eq!(extremes(count, [ONE; 4]), Err(COUNT));
    }
}

#[test]
fn fixnums() {
    assert_eq!([0, 1, -1, 3].map(|n| fixnum_to_flonum(24, n)), [0, ONE, SIGN | ONE, THREE].map(Ok));
    // 2^53 and the next flonum 2^53 + 2.
    let (n, x) = (1 << 53, 0x4340_0000_0000_0000);
    let halfway = [n - 1, n, n + 1, n + 2, n + 3, n + 4].map(|n| fixnum_to_flonum(64, n));
    assert_eq!(halfway, [x - 1, x, x, x + 1, x + 2, x + 2].map(Ok));
    assert_eq!(fixnum_to_flonum(64, i64::MAX), Ok(0x43E0_0000_0000_0000));
    assert_eq!(fixnum_to_flonum(64, i64::MIN), Ok(0xC3E0_0000_0000_0000));
    assert_eq!(fixnum_to_flonum(23, i64::MAX), Err(WIDTH));
    assert_eq!(fixnum_to_flonum(65, 0), Err(WIDTH));
    assert_eq!([1 << 23, -(1 << 23) - 1].map(|n| fixnum_to_flonum(24, n)), [Err(NOT_FIXNUM); 2]);
}

/// The whole number that a flonum is; none if it has a fraction.
fn whole(x: u64) -> Option<i128> {
    let (significand, places) = significand_and_places(x);
    let significand = if is_negative(x) { -i128::from(significand) } else { i128::from(significand) };
    match places {
        ..=0 => Some(significand << -places),
        // Every significand is below 2^64.
        _ => (significand % (1 << places.min(64)) == 0).then(|| significand >> places.min(64)),
    }
}

/// No flonum is closer to the fixnum; if a neighbour is as near, the last bit is 0. From 2^53 on all of them are whole.
#[test]
fn nearest_over_whole_numbers() {
    let mut random = Random::new(12);
    for _ in 0..200_000 {
        let n = fixnum(&mut random, 64);
        let x = fixnum_to_flonum(64, n).expect("every number is a fixnum at width 64");
        if n.unsigned_abs() <= 1 << 53 {
            assert_eq!(whole(x), Some(i128::from(n)));
            continue;
        }
        let [chosen, below, above] = [x, x - 1, x + 1].map(|x| {
            let whole = whole(x).expect("flonums from 2^53 on are whole");
            (whole - i128::from(n)).abs()
        });
        let other = below.min(above);
        assert!(chosen < other || (chosen == other && x % 2 == 0), "{n}");
    }
}
