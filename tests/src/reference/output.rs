//! What a result does to the caller's output buffer (01's work page).

use crate::refusal::ROOM;

/// Writes the result from the first limb on and answers its length. Nothing is written where the result was refused, or
/// is longer than the capacity.
pub fn write(result: &Result<Vec<u32>, u64>, out: &mut [u32], first: u64) -> Result<u64, u64> {
    let limbs = result.as_ref().map_err(|&refusal| refusal)?;
    let capacity = (out.len() as u64).saturating_sub(first);
    let length = limbs.len() as u64;
    if length > capacity {
        return Err(ROOM);
    }
    for (i, &limb) in limbs.iter().enumerate() {
        out[first as usize + i] = limb;
    }
    Ok(length)
}
