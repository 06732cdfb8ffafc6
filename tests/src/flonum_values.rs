//! Flonums that the rules name or that lie at a limit, as their bits.

use crate::reference::flonum::{INFINITY, NAN, SIGN};

pub const HALF: u64 = 0x3FE0_0000_0000_0000;
pub const ONE: u64 = 0x3FF0_0000_0000_0000;
/// The greatest number that has a half: 2^52 - 1/2.
pub const LAST_HALF: u64 = 0x432F_FFFF_FFFF_FFFF;
/// From 2^52 on every number is whole.
pub const FIRST_WHOLE: u64 = 0x4330_0000_0000_0000;
pub const SMALLEST: u64 = 1;
pub const LARGEST_SUBNORMAL: u64 = 0x000F_FFFF_FFFF_FFFF;
pub const GREATEST: u64 = INFINITY - 1;

/// Numbers of both signs, and NaNs.
pub const SPECIAL: [u64; 42] = [
    0,
    SIGN,
    SMALLEST,
    SIGN | SMALLEST,
    LARGEST_SUBNORMAL,
    SIGN | LARGEST_SUBNORMAL,
    LARGEST_SUBNORMAL + 1,
    // Next to 1/2: 0.49999999999999994 and 0.5000000000000001.
    HALF - 1,
    HALF,
    SIGN | HALF,
    HALF + 1,
    SIGN | (HALF + 1),
    // 0.9999999999999999, 1.0 and 1.0000000000000002.
    ONE - 1,
    SIGN | (ONE - 1),
    ONE,
    SIGN | ONE,
    ONE + 1,
    // 1.5, 2.5, 3.5 and 2.0.
    0x3FF8_0000_0000_0000,
    SIGN | 0x3FF8_0000_0000_0000,
    0x4004_0000_0000_0000,
    SIGN | 0x4004_0000_0000_0000,
    0x400C_0000_0000_0000,
    0x4000_0000_0000_0000,
    // 2^51 - 1/4, 2^51 and 2^51 + 1/2.
    0x431F_FFFF_FFFF_FFFF,
    0x4320_0000_0000_0000,
    0x4320_0000_0000_0001,
    // 2^52 - 1, 2^52 - 1/2, 2^52 and 2^52 + 1.
    LAST_HALF - 1,
    LAST_HALF,
    SIGN | LAST_HALF,
    FIRST_WHOLE,
    FIRST_WHOLE + 1,
    SIGN | (FIRST_WHOLE + 1),
    // 2^53 - 1, 2^53 and 2^63.
    0x433F_FFFF_FFFF_FFFF,
    0x4340_0000_0000_0000,
    0x43E0_0000_0000_0000,
    GREATEST,
    SIGN | GREATEST,
    INFINITY,
    SIGN | INFINITY,
    INFINITY + 1,
    NAN,
    u64::MAX,
];
