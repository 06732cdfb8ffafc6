//! The equations that define division, and the refusals at the limits of each width.

use super::{any_size, call};
use crate::fixnum_arguments::{greatest, least, random_width};
use crate::random::Random;
use crate::reference::width::WIDTHS;
use crate::refusal::{COUNT, DOMAIN, NOT_FIXNUM, SIZE};

#[test]
fn division() {
    let mut random = Random::new(5);
    for _ in 0..50_000 {
        let width = random_width(&mut random);
        let [x, y] = [0; 2].map(|_| any_size(&mut random, width - 1));
        let args = [x as i64, y as i64];
        if y != 0 && (x, y) != (-(1 << (width - 1)), -1) {
            let (_, q, m) = call(width, 18, &args);
            assert!(x == i128::from(q) * y + i128::from(m) && 0 <= m && i128::from(m) < y.abs());
            let (_, q, m) = call(width, 21, &args);
            let twice = 2 * i128::from(m);
            assert!(x == i128::from(q) * y + i128::from(m) && -y.abs() <= twice && twice < y.abs());
        }
    }
}

#[test]
fn limits_of_each_width() {
    for width in WIDTHS {
        let (least, greatest) = (least(width), greatest(width));
        assert_eq!(call(width, 13, &[greatest, 1]), (SIZE, 0, 0));
        assert_eq!(call(width, 15, &[least, 1]), (DOMAIN, 0, 0));
        assert_eq!(call(width, 14, &[least, -1]), (SIZE, 0, 0));
        assert_eq!(call(width, 14, &[least, 1]), (0, least, 0));
        assert_eq!(call(width, 25, &[least]), (0, greatest, 0));
        assert_eq!(call(width, 33, &[least, width as i64 - 1]), (0, 1, 0));
        assert_eq!(call(width, 33, &[least, width as i64]), (DOMAIN, 0, 0));
        assert_eq!(call(width, 38, &[0, width as i64 - 1]), (0, 0, 0));
        assert_eq!(call(width, 39, &[least, width as i64 - 1]), (0, -1, 0));
    }
}

#[test]
fn identities_and_order_of_refusals() {
    assert_eq!(call(24, 26, &[]), (0, -1, 0));
    assert_eq!(call(24, 27, &[]), (0, 0, 0));
    assert_eq!(call(24, 28, &[]), (0, 0, 0));
    assert_eq!(call(24, 13, &[i64::MAX]), (COUNT, 0, 0));
    assert_eq!(call(24, 33, &[0, i64::MAX]), (NOT_FIXNUM, 0, 0));
    assert_eq!(call(24, 2, &[3, 2, 1]), (0, 1, 0));
    assert_eq!(call(24, 2, &[3, 1, 2]), (0, 0, 0));
}
