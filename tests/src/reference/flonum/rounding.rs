//! flfloor, flceiling, fltruncate and flround. The sign stays, whatever the magnitude is rounded to.

use super::conversion::{half_even, nearest};
use super::{canonical, is_finite, is_negative, significand_and_places, SIGN};

#[derive(Clone, Copy, Debug, PartialEq, Eq)]
pub enum Rounding {
    Floor,
    Ceiling,
    Truncate,
    Round,
}

impl Rounding {
    pub const ALL: [Rounding; 4] = [Rounding::Floor, Rounding::Ceiling, Rounding::Truncate, Rounding::Round];

    pub fn of(self, x: u64) -> u64 {
        if !is_finite(x) {
            return canonical(x);
        }
        match significand_and_places(x) {
            (significand, places @ 1..) => {
                let whole = self.magnitude(is_negative(x), significand, places as u64);
                (x & SIGN) | nearest(whole)
            }
            // Without places x is whole already.
            _ => x,
        }
    }

    /// significand / 2^places, or its opposite, rounded: the magnitude, which is at most 2^52.
    fn magnitude(self, is_negative: bool, significand: u64, places: u64) -> u64 {
        // From 54 places on the magnitude is below 1/2, and not 0 unless the significand is: 63 places show the same.
        let places = places.min(63);
        let truncated = significand >> places;
        let away = u64::from(significand % (1 << places) != 0);
        match self {
            Rounding::Truncate => truncated,
            Rounding::Floor if is_negative => truncated + away,
            Rounding::Ceiling if !is_negative => truncated + away,
            Rounding::Floor | Rounding::Ceiling => truncated,
            Rounding::Round => half_even(significand, places),
        }
    }
}
