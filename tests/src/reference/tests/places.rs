//! The place: for refusal 4 the first counted argument that is not a fixnum, for 5 the first, left to right, that breaks
//! a domain given those before it. Code 15's size refusal and all else carry 0.

use super::{answer, SOME_WIDTHS};
use crate::fixnum_arguments::{beyond, greatest, least};
use crate::random::Random;
use crate::random_arguments::fixnum::call;
use crate::reference::fixnum::{codes_and_counts, fixnum, Answer};
use crate::reference::width::WHOLE_WORD;
use crate::refusal::{CODE, COUNT, DOMAIN, DONE, NOT_FIXNUM, SIZE, WIDTH};

/// Arguments that every code takes.
const LEGAL: [i64; 4] = [5, 1, 1, 0];

/// The refusal number and the place.
fn place(width: u64, code: u64, args: &[i64]) -> (u64, u64) {
    let Answer { refusal, place, .. } = answer(width, code, args);
    (refusal, place)
}

/// The calls with these second, third and fourth arguments are refused 5, with that place.
fn outside_domain<const N: usize>(codes: &[u64], width: u64, expected: u64, lists: &[[i64; N]]) {
    for &code in codes {
        for list in lists {
            let args = [&[5], &list[..]].concat();
            assert_eq!(place(width, code, &args), (DOMAIN, expected), "width {width}, code {code}: {args:?}");
        }
    }
}

#[test]
fn the_first_counted_argument_that_is_not_a_fixnum() {
    for width in SOME_WIDTHS.into_iter().filter(|&width| width != WHOLE_WORD) {
        let beyond = beyond(width);
        for (code, count) in codes_and_counts() {
            for set in 0..16u64 {
                let args = std::array::from_fn(|i| if (set >> i) & 1 == 1 { beyond[i] } else { LEGAL[i] });
                let first = u64::from(set.trailing_zeros()) + 1;
                let expected = if first <= count { (NOT_FIXNUM, first) } else { (DONE, 0) };
                let Answer { refusal, place, .. } = fixnum(width, code, args, count);
                assert_eq!((refusal, place), expected, "width {width}, code {code}, count {count}: {args:?}");
            }
        }
    }
}

#[test]
fn a_fixnum_comes_before_a_domain() {
    let beyond = greatest(24) + 1;
    assert_eq!(place(24, 34, &[5, 24, beyond]), (NOT_FIXNUM, 3));
    assert_eq!(place(24, 35, &[5, -1, beyond]), (NOT_FIXNUM, 3));
    assert_eq!(place(24, 36, &[5, 3, 2, beyond]), (NOT_FIXNUM, 4));
    assert_eq!(place(24, 40, &[5, 24, 24, beyond]), (NOT_FIXNUM, 4));
    assert_eq!(place(24, 40, &[5, 24, beyond, -1]), (NOT_FIXNUM, 3));
    assert_eq!(place(24, 16, &[beyond, 0]), (NOT_FIXNUM, 1));
}

#[test]
fn divisors_positions_and_distances() {
    for width in SOME_WIDTHS {
        let w = width as i64;
        outside_domain(&[16, 17, 18, 19, 20, 21], width, 2, &[[0]]);
        outside_domain(&[33, 38, 39], width, 2, &[[-1], [w], [least(width)], [greatest(width)]]);
        outside_domain(&[37], width, 2, &[[-w], [w], [least(width)], [greatest(width)]]);
    }
}

#[test]
fn new_bits() {
    outside_domain(&[34], 24, 2, &[[-1, 0], [24, 1], [-1, 2], [24, -1]]);
    outside_domain(&[34], 24, 3, &[[0, 2], [23, -1], [23, greatest(24)], [0, least(24)]]);
}

/// The end is tested against the start, so a bad start comes first, whatever the end is.
#[test]
fn fields() {
    for width in SOME_WIDTHS {
        let (w, least, greatest) = (width as i64, least(width), greatest(width));
        let starts = [[-1, 3], [-1, -1], [-1, -2], [-1, w], [w, w - 1], [w, w], [w, w + 1], [least, 0], [greatest, 0]];
        let ends = [[5, 4], [5, 0], [1, 0], [w - 1, w - 2], [0, -1], [0, w], [w - 1, w], [5, least], [5, greatest]];
        outside_domain(&[35, 41], width, 2, &starts);
        outside_domain(&[35, 41], width, 3, &ends);
        for last in [-1, 0, 1, w] {
            outside_domain(&[36, 40], width, 2, &starts.map(|[start, end]| [start, end, last]));
            outside_domain(&[36, 40], width, 3, &ends.map(|[start, end]| [start, end, last]));
        }
        let counts = [[3, 5, 3], [3, 5, -1], [3, 3, 1], [0, w - 1, w], [w - 1, w - 1, least], [0, 1, greatest]];
        outside_domain(&[40], width, 4, &counts);
    }
}

#[test]
fn all_else_carries_0() {
    let (least, greatest) = (least(24), greatest(24));
    for (code, args) in [(15, &[least][..]), (15, &[least, 1]), (15, &[greatest, -1])] {
        assert_eq!(place(24, code, args), (DOMAIN, 0));
    }
    for (code, args) in [(13, [greatest, 1]), (14, [least, -1]), (16, [least, -1]), (21, [least, -1]), (37, [1, 23])] {
        assert_eq!(place(24, code, &args), (SIZE, 0));
    }
    assert_eq!(place(23, 25, &[i64::MAX]), (WIDTH, 0));
    assert_eq!(place(24, 42, &[i64::MAX]), (CODE, 0));
    assert_eq!(place(24, 25, &[i64::MAX; 2]), (COUNT, 0));
    assert_eq!(place(24, 40, &[5, 0, 3, 3]), (DONE, 0));
}

/// The arguments after a domain's place have no influence on it, and those before it can belong to a done call.
#[test]
fn those_before_the_place_are_in_their_domains() {
    let mut random = Random::new(8);
    let calls = std::iter::repeat_with(|| call(&mut random)).map(|call| {
        let answer = fixnum(call.width, call.code, call.args, call.count);
        (call, answer.refusal, answer.place as usize)
    });
    for (call, _, place) in calls.filter(|&(_, refusal, place)| refusal == DOMAIN && place > 0).take(20_000) {
        let end = if call.code == 34 { 0 } else { call.args[1] };
        let (mut changed, mut mended) = (call.args, call.args);
        changed[place..].copy_from_slice(&[5, 0, end, 0][place..]);
        mended[place - 1..].copy_from_slice(&[5, 1, if place == 2 { 1 } else { end }, 0][place - 1..]);
        let again = |args| fixnum(call.width, call.code, args, call.count);
        assert_eq!((again(changed).refusal, again(changed).place as usize), (DOMAIN, place), "{call:?}");
        assert_eq!(again(mended).place, 0, "{call:?}");
    }
}
