//! The conversions between fixnum and limbs. The capacity is in `output`.

use super::integer::Integer;
use super::limbs::integers;
use super::width::{is_fixnum, is_width};
use crate::operation::Operation::LimbsToFixnum;
use crate::refusal::{NOT_FIXNUM, SIZE, WIDTH};

pub fn limbs_to_fixnum(width: u64, limbs: &[u32]) -> Result<i64, u64> {
    if !is_width(width) {
        return Err(WIDTH);
    }
    let x = &integers(LimbsToFixnum, &[limbs])?[0];
    match x.to_i128() {
        Some(n) if is_fixnum(width, n) => Ok(n as i64),
        _ => Err(SIZE),
    }
}

/// The shortest form of the fixnum n.
pub fn fixnum_to_limbs(width: u64, n: i64) -> Result<Vec<u32>, u64> {
    if !is_width(width) {
        return Err(WIDTH);
    }
    if !is_fixnum(width, i128::from(n)) {
        return Err(NOT_FIXNUM);
    }
    Ok(Integer::from_i128(i128::from(n)).to_limbs())
}
