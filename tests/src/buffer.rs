//! An output buffer between guard limbs.

use crate::report::shown;
use std::fmt;

const GUARD_LIMB: u32 = 0x5AFE_5AFE;

#[derive(Clone, PartialEq, Eq)]
pub struct Buffer {
    limbs: Vec<u32>,
    guard: usize,
}

impl Buffer {
    /// The limbs with `guard` more on either side.
    pub fn new(inside: &[u32], guard: usize) -> Buffer {
        let mut limbs = Vec::with_capacity(inside.len() + 2 * guard);
        limbs.resize(guard, GUARD_LIMB);
        limbs.extend_from_slice(inside);
        limbs.resize(inside.len() + 2 * guard, GUARD_LIMB);
        Buffer { limbs, guard }
    }

    /// The part that a call is given.
    pub fn inside(&mut self) -> &mut [u32] {
        let end = self.limbs.len() - self.guard;
        &mut self.limbs[self.guard..end]
    }
}

impl fmt::Display for Buffer {
    fn fmt(&self, f: &mut fmt::Formatter) -> fmt::Result {
        let (before, rest) = self.limbs.split_at(self.guard);
        let (inside, after) = rest.split_at(rest.len() - self.guard);
        write!(f, "out {}", shown(inside))?;
        if before.iter().chain(after).any(|&limb| limb != GUARD_LIMB) {
            write!(f, ", outside it {} and {}", shown(before), shown(after))?;
        }
        Ok(())
    }
}
