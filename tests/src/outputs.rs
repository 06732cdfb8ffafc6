//! Output buffers for a result of known length: with room, one limb short, and with huge first limbs.

use quebralua_reference::call::Output;
use quebralua_reference::random::Random;

/// How an output buffer and its first limb stand to the result's length.
#[derive(Clone, Copy, Debug)]
pub enum Shape {
    Exact,
    ExactLater,
    Longer,
    LongerLater,
    OneShort,
    OneShortLater,
    Empty,
    FirstAtLength,
    FirstBeyondLength,
    /// The first limb plus the result's length is 0 mod 2^64.
    FirstWraps,
    FirstGreatest,
    /// The low 32 bits of the first limb are 0.
    FirstPast32Bits,
}

use Shape::*;

pub const WITH_ROOM: [Shape; 4] = [Exact, ExactLater, Longer, LongerLater];

pub const TOO_SHORT: [Shape; 8] =
    [OneShort, OneShortLater, Empty, FirstAtLength, FirstBeyondLength, FirstWraps, FirstGreatest, FirstPast32Bits];

/// An output buffer of that shape, filled with random limbs, for a result of that length, which is at least 1.
pub fn output(shape: Shape, length: usize, random: &mut Random) -> Output {
    let before = 1 + random.below(4) as usize;
    let most_after = if random.one_in(100) { 1200 } else { 4 };
    let after = 1 + random.below(most_after) as usize;
    let size = length + after;
    let (size, first) = match shape {
        Exact => (length, 0),
        ExactLater => (before + length, before as u64),
        Longer => (size, 0),
        LongerLater => (before + size, before as u64),
        OneShort => (length - 1, 0),
        OneShortLater => (before + length - 1, before as u64),
        Empty => (0, 0),
        FirstAtLength => (size, size as u64),
        FirstBeyondLength => (size, size as u64 + 1),
        FirstWraps => (size, 0u64.wrapping_sub(length as u64)),
        FirstGreatest => (size, u64::MAX),
        FirstPast32Bits => (size, 1 << 32),
    };
    Output { limbs: (0..size).map(|_| random.next_u32()).collect(), first }
}
