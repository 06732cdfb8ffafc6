//! The carry operations a second time. Both results together are the exact sum, and the low one is a fixnum: at width 64
//! it is what the machine's wrapping operations give.

use super::{any_size, call};
use crate::fixnum_arguments::{numbers, random_width};
use crate::random::Random;
use crate::reference::width::{is_fixnum, WIDTHS};

const CODES: [u64; 3] = [22, 23, 24];

fn exact(code: u64, [x, y, z]: [i64; 3]) -> i128 {
    let [x, y, z] = [x, y, z].map(i128::from);
    match code {
        22 => x + y + z,
        23 => x - y - z,
        _ => x * y + z,
    }
}

fn wrapped(code: u64, [x, y, z]: [i64; 3]) -> i64 {
    match code {
        22 => x.wrapping_add(y).wrapping_add(z),
        23 => x.wrapping_sub(y).wrapping_sub(z),
        _ => x.wrapping_mul(y).wrapping_add(z),
    }
}

/// Both results are as the equations say, at any width.
fn check(width: u64, args: [i64; 3]) {
    for code in CODES {
        let (refusal, low, carry) = call(width, code, &args);
        let text = format!("width {width}, code {code}: {args:?}");
        assert_eq!((refusal, i128::from(low) + i128::from(carry) * (1 << width)), (0, exact(code, args)), "{text}");
        assert!(is_fixnum(width, i128::from(low)) && is_fixnum(width, i128::from(carry)), "{text}");
        if width == 64 {
            assert_eq!(low, wrapped(code, args), "{text}");
        }
    }
}

#[test]
fn any_numbers() {
    let mut random = Random::new(10);
    for _ in 0..50_000 {
        let width = random_width(&mut random);
        check(width, [0; 3].map(|_| any_size(&mut random, width - 1) as i64));
        check(64, [0; 3].map(|_| random.next_i64()));
    }
}

#[test]
fn numbers_at_the_limits() {
    for width in WIDTHS {
        let mut numbers = numbers(width);
        numbers.retain(|&n| is_fixnum(width, i128::from(n)));
        for &x in &numbers {
            for &y in &numbers {
                numbers.iter().for_each(|&z| check(width, [x, y, z]));
            }
        }
    }
}

#[test]
fn results_by_hand() {
    let (least, greatest) = (i64::MIN, i64::MAX);
    for (code, args, low, carry) in [
        (22, [least; 3], least, -1),
        (22, [greatest; 3], greatest - 2, 1),
        (22, [greatest, 1, 0], least, 1),
        (22, [greatest, greatest, 2], 0, 1),
        (22, [least, least, 0], 0, -1),
        (23, [0, least, 0], least, 1),
        (23, [0, least, least], 0, 1),
        (23, [least, greatest, greatest], least + 2, -1),
        (23, [greatest, least, least], greatest, 1),
        (23, [-2, greatest, greatest], 0, -1),
        (24, [least; 3], least, 1 << 62),
        (24, [least, least, greatest], greatest, 1 << 62),
        (24, [least, greatest, least], 0, -1 << 62),
        (24, [greatest; 3], least, 1 << 62),
        (24, [-1, -1, greatest], least, 1),
        (24, [-1, least, 0], least, 1),
        (24, [-1, least, -1], greatest, 0),
        (24, [1 << 32, 1 << 32, -1], -1, 1),
    ] {
        assert_eq!(call(64, code, &args), (0, low, carry), "code {code}: {args:?}");
    }
}
