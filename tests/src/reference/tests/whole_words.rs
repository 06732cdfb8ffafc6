//! Width 64, where every number is a fixnum.

use super::call;
use crate::fixnum_arguments::{beyond, numbers, positions};
use crate::random::Random;
use crate::reference::conversion::{fixnum_to_limbs, limbs_to_fixnum};
use crate::reference::fixnum::{codes_and_counts, fixnum};
use crate::refusal::{DOMAIN, NOT_FIXNUM, OPERAND, SIZE};

const LEAST: i64 = i64::MIN;
const GREATEST: i64 = i64::MAX;

#[test]
fn refusal_4_never_comes() {
    let mut random = Random::new(9);
    let values = [numbers(64), positions(64), beyond(64).to_vec()].concat();
    for (code, count) in codes_and_counts() {
        for _ in 0..2_000 {
            let args = [0; 4].map(|_| if random.one_in(4) { random.next_i64() } else { random.choose(&values) });
            assert_ne!(fixnum(64, code, args, count).refusal, NOT_FIXNUM, "code {code}: {args:?}");
        }
    }
    assert!(values.iter().all(|&n| fixnum_to_limbs(64, n).is_ok()));
}

#[test]
fn results_beyond_the_word() {
    assert_eq!(call(64, 15, &[LEAST]), (DOMAIN, 0, 0));
    assert_eq!(call(64, 15, &[0, LEAST]), (DOMAIN, 0, 0));
    assert_eq!(call(64, 15, &[-1, LEAST]), (0, GREATEST, 0));
    for (code, args) in [(13, [GREATEST, 1]), (13, [LEAST, -1]), (13, [LEAST, LEAST]), (14, [LEAST, -1])] {
        assert_eq!(call(64, code, &args), (SIZE, 0, 0));
    }
    assert_eq!(call(64, 14, &[LEAST, LEAST]), (SIZE, 0, 0));
    assert_eq!(call(64, 14, &[1 << 32, -1 << 31]), (0, LEAST, 0));
    for code in [16, 18, 19, 21] {
        assert_eq!(call(64, code, &[LEAST, -1]), (SIZE, 0, 0));
    }
    for code in [17, 20] {
        assert_eq!(call(64, code, &[LEAST, -1]), (0, 0, 0));
    }
}

/// mod0 of half the divisor is negative, also where twice the remainder is beyond a word.
#[test]
fn halves() {
    assert_eq!(call(64, 21, &[1 << 62, LEAST]), (0, -1, -1 << 62));
    assert_eq!(call(64, 21, &[(1 << 62) - 1, LEAST]), (0, 0, (1 << 62) - 1));
    assert_eq!(call(64, 21, &[-1 << 62, LEAST]), (0, 0, -1 << 62));
    assert_eq!(call(64, 21, &[GREATEST, LEAST]), (0, -1, -1));
    assert_eq!(call(64, 21, &[LEAST, GREATEST]), (0, -1, -1));
}

#[test]
fn positions_to_63() {
    assert_eq!(call(64, 33, &[LEAST, 63]), (0, 1, 0));
    assert_eq!(call(64, 33, &[LEAST, 64]), (DOMAIN, 0, 0));
    assert_eq!(call(64, 34, &[0, 63, 1]), (0, LEAST, 0));
    assert_eq!(call(64, 34, &[-1, 63, 0]), (0, GREATEST, 0));
    assert_eq!(call(64, 34, &[0, 62, 1]), (0, 1 << 62, 0));
    assert_eq!(call(63, 34, &[0, 62, 1]), (0, -1 << 62, 0));
    assert_eq!(call(64, 35, &[-1, 0, 63]), (0, GREATEST, 0));
    assert_eq!(call(64, 35, &[-1, 62, 63]), (0, 1, 0));
    assert_eq!(call(64, 36, &[LEAST, 0, 63, -1]), (0, -1, 0));
    assert_eq!(call(64, 41, &[LEAST + 1, 0, 63]), (0, -1 << 62, 0));
    assert_eq!(call(64, 41, &[1, 0, 64]), (DOMAIN, 0, 0));
}

#[test]
fn shifts_to_63() {
    assert_eq!(call(64, 37, &[1, 62]), (0, 1 << 62, 0));
    assert_eq!(call(64, 37, &[1, 63]), (SIZE, 0, 0));
    assert_eq!(call(64, 37, &[-1, 63]), (0, LEAST, 0));
    assert_eq!(call(64, 37, &[1, 64]), (DOMAIN, 0, 0));
    assert_eq!(call(64, 37, &[LEAST, -63]), (0, -1, 0));
    assert_eq!(call(64, 37, &[LEAST, LEAST]), (DOMAIN, 0, 0));
    assert_eq!(call(64, 39, &[GREATEST, 63]), (0, 0, 0));
    assert_eq!(call(64, 39, &[GREATEST, 64]), (DOMAIN, 0, 0));
}

#[test]
fn counts_of_whole_words() {
    assert_eq!([call(64, 30, &[LEAST]), call(64, 30, &[GREATEST])], [(0, -64, 0), (0, 63, 0)]);
    assert_eq!([call(64, 31, &[LEAST]), call(64, 31, &[GREATEST])], [(0, 63, 0), (0, 63, 0)]);
    assert_eq!([call(64, 32, &[LEAST]), call(64, 32, &[GREATEST])], [(0, 63, 0), (0, 0, 0)]);
}

#[test]
fn conversions() {
    assert_eq!(fixnum_to_limbs(64, LEAST), Ok(vec![0, 0x8000_0000]));
    assert_eq!(fixnum_to_limbs(64, GREATEST), Ok(vec![u32::MAX, 0x7FFF_FFFF]));
    assert_eq!(limbs_to_fixnum(64, &[0, 0x8000_0000]), Ok(LEAST));
    assert_eq!(limbs_to_fixnum(64, &[0, 0x8000_0000, u32::MAX]), Err(OPERAND));
    assert_eq!(limbs_to_fixnum(64, &[0, 0x8000_0000, 0]), Err(SIZE));
    assert_eq!(limbs_to_fixnum(64, &[u32::MAX, 0x7FFF_FFFF, u32::MAX]), Err(SIZE));
    assert_eq!(limbs_to_fixnum(64, &[0, 0, 1]), Err(SIZE));
    assert_eq!(limbs_to_fixnum(63, &[0, 0x4000_0000]), Err(SIZE));
    assert_eq!(limbs_to_fixnum(63, &[0, 0xC000_0000]), Ok(-1 << 62));
}
