//! The shortest form, the domains of the limb calls, and the net count.

use crate::operation::Operation::*;
use crate::reference::integer::Integer;
use crate::reference::limbs::{result, value};
use crate::reference::lists::{net, Net, Step};
use crate::refusal::{DOMAIN, OPERAND};

fn shortest(limbs: &[u32]) -> Vec<u32> {
    Integer::from_limbs(limbs).to_limbs()
}

#[test]
fn shortest_form() {
    assert_eq!(shortest(&[0, 0, 0]), [0]);
    assert_eq!(shortest(&[u32::MAX; 5]), [u32::MAX]);
    assert_eq!(shortest(&[0x8000_0000, 0, 0]), [0x8000_0000, 0]);
    assert_eq!(shortest(&[0x8000_0000, u32::MAX]), [0x8000_0000]);
    assert_eq!(shortest(&[0x7FFF_FFFF, 0]), [0x7FFF_FFFF]);
    assert_eq!(shortest(&[0x7FFF_FFFF, u32::MAX]), [0x7FFF_FFFF, u32::MAX]);
    assert_eq!(shortest(&[0, 0x8000_0000]), [0, 0x8000_0000]);
}

#[test]
fn small_integers_both_ways() {
    for n in [0, 1, -1, 2, -2, 1 << 31, -1 << 31, (1 << 31) - 1, -(1 << 31) - 1, 1 << 63, -1 << 64, 1 << 125] {
        let x = Integer::from_i128(n);
        assert_eq!(x.to_i128(), Some(n));
        assert_eq!(Integer::from_limbs(&x.to_limbs()), x);
    }
}

#[test]
fn limb_domains() {
    let x: &[u32] = &[5];
    assert!(result(CopyBit, &[x], &[32_766, 1]).is_ok());
    assert_eq!(result(CopyBit, &[x], &[32_767, 1]), Err(DOMAIN));
    assert_eq!(result(CopyBit, &[x], &[0, 2]), Err(DOMAIN));
    assert_eq!(result(BitField, &[&[u32::MAX]], &[0, 32_767]).map(|limbs| limbs.len()), Ok(1024));
    assert_eq!(result(BitField, &[x], &[0, 32_768]), Err(DOMAIN));
    assert_eq!(result(Reverse, &[x], &[2, 1]), Err(DOMAIN));
    assert_eq!(result(Rotate, &[x], &[1, 1, -1]), Err(DOMAIN));
    assert_eq!(result(ShiftLeft, &[x], &[-1]), Err(DOMAIN));
    assert_eq!(value(BitSet, &[x], &[-1]), Err(DOMAIN));
    assert_eq!(value(BitSet, &[&[u32::MAX]], &[i64::MAX]), Ok(1));
    assert_eq!(result(CopyBitField, &[x, &[]], &[2, 1]), Err(OPERAND));
    assert_eq!(value(BitSet, &[&[0; 1025]], &[-1]), Err(OPERAND));
}

#[test]
fn net_count() {
    let steps = [Step::Rotate(3), Step::Reverse, Step::Rotate(9), Step::Rotate(-1), Step::Rotate(4)];
    assert_eq!(net(&steps, 8, |c| (0..=8).contains(&c)), Net { reversed: true, count: 1 });
    assert_eq!(net(&steps, 8, |c| c >= 0), Net { reversed: true, count: 2 });
    assert_eq!(net(&[Step::Rotate(i64::MAX); 2], 10, |_| true), Net { reversed: false, count: 4 });
    assert_eq!(net(&[Step::Reverse; 2], 1, |_| true), Net { reversed: false, count: 0 });
    let full = [Step::Rotate(8), Step::Rotate(3), Step::Rotate(8), Step::Reverse, Step::Rotate(8)];
    assert_eq!(net(&full, 8, |c| (0..=8).contains(&c)), Net { reversed: true, count: 5 });
}
