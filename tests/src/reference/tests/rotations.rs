//! Full rotations, empty fields, and one rotation after another.

use super::{any_size, call, small, SOME_WIDTHS};
use crate::fixnum_arguments::{beyond, greatest, least};
use crate::operation::Operation::Rotate;
use crate::random::Random;
use crate::reference::width::WHOLE_WORD;
use crate::refusal::{DOMAIN, NOT_FIXNUM};

/// Numbers of either sign.
fn numbers(width: u64) -> [i64; 8] {
    [0, 5, 0x12_3456, greatest(width), -1, -6, -0x12_3456, least(width)]
}

/// Every field of a width that has a bit, and every number.
fn fields(mut each: impl FnMut(u64, i64, i64, i64)) {
    for width in SOME_WIDTHS {
        for end in 1..width as i64 {
            for start in 0..end {
                numbers(width).into_iter().for_each(|x| each(width, x, start, end));
            }
        }
    }
}

/// The result of a rotation that is done.
fn rotated(width: u64, x: i64, start: i64, end: i64, count: i64) -> i64 {
    let (refusal, first, second) = call(width, 40, &[x, start, end, count]);
    assert_eq!((refusal, second), (0, 0), "width {width}: {x} {start} {end} {count}");
    first
}

#[test]
fn full_rotations_change_nothing() {
    fields(|width, x, start, end| assert_eq!(rotated(width, x, start, end, end - start), x));
}

#[test]
fn counts_outside_the_field_are_refused() {
    fields(|width, x, start, end| {
        for count in [end - start + 1, width as i64, -1, least(width), greatest(width)] {
            assert_eq!(call(width, 40, &[x, start, end, count]), (DOMAIN, 0, 0));
        }
    });
}

#[test]
fn counts_below_a_full_rotation_still_rotate() {
    assert_eq!(rotated(24, 5, 0, 3, 2), 6);
    assert_eq!(rotated(24, -6, 0, 3, 1), -4);
    for (width, last) in [(62, 61), (63, 62), (64, 63)] {
        assert_eq!(rotated(width, 1, 0, last, last - 1), 1 << (last - 1));
        assert_eq!(rotated(width, least(width) + 1, 0, last, last - 1), least(width) + (1 << (last - 1)));
    }
}

#[test]
fn empty_fields_take_the_count_0_only() {
    for width in SOME_WIDTHS {
        for place in 0..width as i64 {
            for x in numbers(width) {
                assert_eq!(rotated(width, x, place, place, 0), x);
                for count in [1, -1, place + 1, least(width), greatest(width)] {
                    assert_eq!(call(width, 40, &[x, place, place, count]), (DOMAIN, 0, 0));
                }
            }
        }
    }
}

#[test]
fn no_field_ends_at_the_width_or_below_its_start() {
    for width in SOME_WIDTHS {
        let w = width as i64;
        for (start, end, count) in [(w, w, 0), (-1, -1, 0), (0, w, w), (w - 1, w, 1), (3, 2, 0), (3, 2, -1)] {
            assert_eq!(
                call(width, 40, &[5, start, end, count]),
                (DOMAIN, 0, 0),
                "width {width}: {start} {end} {count}"
            );
        }
    }
}

#[test]
fn a_count_that_is_no_fixnum_is_refused_first() {
    for width in SOME_WIDTHS {
        // At width 64 every count is a fixnum, and none of these is in its domain.
        let expected = if width == WHOLE_WORD { DOMAIN } else { NOT_FIXNUM };
        for (start, end) in [(0, 3), (3, 3), (3, 2), (0, width as i64)] {
            for count in beyond(width) {
                assert_eq!(call(width, 40, &[5, start, end, count]), (expected, 0, 0));
            }
        }
    }
}

#[test]
fn limbs_take_any_count_from_0() {
    for (start, end, count, result) in [(0, 3, 3, 5), (0, 3, 4, 3), (0, 3, i64::MAX, 3), (3, 3, 0, 5), (3, 3, 7, 5)] {
        assert_eq!(small(Rotate, &[5], &[start, end, count]), Ok(result), "{start} {end} {count}");
    }
    assert_eq!(small(Rotate, &[5], &[0, 3, -1]), Err(DOMAIN));
    assert_eq!(small(Rotate, &[5], &[3, 3, -1]), Err(DOMAIN));
}

/// A width, a number, and a field that has a bit; one field in eight is as long as the width allows.
fn random_field(random: &mut Random) -> (u64, i64, i64, i64) {
    let width = random.choose(&SOME_WIDTHS);
    let x = any_size(random, width - 1) as i64;
    let last = width as i64 - 1;
    if random.one_in(8) {
        return (width, x, 0, last);
    }
    let start = random.between(0, last - 1);
    (width, x, start, random.between(start + 1, last))
}

#[test]
fn two_rotations_are_one() {
    let mut random = Random::new(6);
    for _ in 0..2_000 {
        let (width, x, start, end) = random_field(&mut random);
        let f = end - start;
        let rotate = |x, count| rotated(width, x, start, end, count);
        for a in [0, 1, f - 1, f, random.between(0, f)] {
            for b in [0, 1, f - 1, f, random.between(0, f)] {
                assert_eq!(rotate(rotate(x, a), b), rotate(x, (a + b) % f), "width {width}: {x} {start} {end} {a} {b}");
            }
        }
    }
}

#[test]
fn a_rotation_is_undone_by_the_rest_of_a_full_one() {
    let mut random = Random::new(7);
    for _ in 0..1_000 {
        let (width, x, start, end) = random_field(&mut random);
        let f = end - start;
        for a in 0..=f {
            let once = rotated(width, x, start, end, a);
            assert_eq!(rotated(width, once, start, end, f - a), x);
            assert_eq!(rotated(width, once, start, end, (f - a) % f), x);
        }
    }
}
