//! The limits of the widths, as documents 01 and 02 have them, and what is a fixnum on either side of those of each width.

use super::call;
use crate::fixnum_arguments::{beyond, greatest, least, refused_widths};
use crate::reference::conversion::{fixnum_to_limbs, limbs_to_fixnum};
use crate::reference::integer::Integer;
use crate::reference::width::WIDTHS;
use crate::refusal::{NOT_FIXNUM, SIZE, WIDTH};

#[test]
fn from_24_to_64() {
    for (width, accepted) in [(0, false), (23, false), (24, true), (62, true), (63, true), (64, true), (65, false)] {
        let expected = if accepted { (0, 3, 0) } else { (WIDTH, 0, 0) };
        assert_eq!(call(width, 13, &[1, 2]), expected, "width {width}");
        assert_eq!(fixnum_to_limbs(width, 5), if accepted { Ok(vec![5]) } else { Err(WIDTH) });
        assert_eq!(limbs_to_fixnum(width, &[5]), if accepted { Ok(5) } else { Err(WIDTH) });
    }
}

#[test]
fn refused_widths_are_refused() {
    for width in refused_widths() {
        assert_eq!(call(width, 13, &[1, 2]), (WIDTH, 0, 0), "width {width}");
        assert_eq!(limbs_to_fixnum(width, &[]), Err(WIDTH));
    }
}

#[test]
fn fixnums_at_each_width() {
    for width in WIDTHS {
        let limit = 1i128 << (width - 1);
        assert_eq!((i128::from(least(width)), i128::from(greatest(width))), (-limit, limit - 1));
        for n in [least(width), greatest(width)] {
            assert_eq!(call(width, 25, &[n]), (0, !n, 0));
            assert_eq!(fixnum_to_limbs(width, n).and_then(|limbs| limbs_to_fixnum(width, &limbs)), Ok(n));
        }
        for n in [-limit - 1, limit] {
            assert_eq!(limbs_to_fixnum(width, &Integer::from_i128(n).to_limbs()), Err(SIZE));
        }
    }
}

#[test]
fn beyond_each_width_but_the_last() {
    for width in WIDTHS.filter(|width| WIDTHS.contains(&(width + 1))) {
        for n in beyond(width) {
            assert_eq!(call(width, 25, &[n]), (NOT_FIXNUM, 0, 0), "width {width}: {n}");
            assert_eq!(fixnum_to_limbs(width, n), Err(NOT_FIXNUM));
        }
    }
    let (least, greatest) = (-1 << 62, (1 << 62) - 1);
    assert_eq!(call(63, 25, &[greatest]), (0, least, 0));
    assert_eq!(call(63, 25, &[least]), (0, greatest, 0));
    assert_eq!(call(63, 25, &[greatest + 1]), (NOT_FIXNUM, 0, 0));
    assert_eq!(call(63, 25, &[least - 1]), (NOT_FIXNUM, 0, 0));
}
