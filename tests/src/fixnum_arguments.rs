//! Arguments of fixnum calls at the limits of a width, and widths at their own limits.

use crate::random::Random;
use crate::reference::width::WIDTHS;

/// What an argument of a fixnum operation is.
#[derive(Clone, Copy, Debug, PartialEq, Eq)]
pub enum Kind {
    Number,
    /// A position, start, end, distance or rotation count.
    Position,
    NewBit,
}

pub fn kind(code: u64, index: usize) -> Kind {
    match (code, index) {
        (_, 0) => Kind::Number,
        (34, 2) => Kind::NewBit,
        (36, 3) => Kind::Number,
        (33..=41, _) => Kind::Position,
        _ => Kind::Number,
    }
}

/// Widths that are refused: next to the limits, and numbers whose low bits are an accepted width.
pub fn refused_widths() -> Vec<u64> {
    let (least, greatest) = (*WIDTHS.start(), *WIDTHS.end());
    let mut widths = vec![0, 1, 2, least - 2, least - 1, greatest + 1, greatest + 2];
    widths.extend([greatest + least, 2 * greatest, 256 + greatest, (1 << 32) + least, (1 << 32) + greatest]);
    widths.extend([1 << 63, (1 << 63) + greatest, u64::MAX]);
    widths
}

/// The accepted width that is nearest to this one.
pub fn nearest_accepted(width: u64) -> u64 {
    width.clamp(*WIDTHS.start(), *WIDTHS.end())
}

/// The least fixnum.
pub fn least(width: u64) -> i64 {
    -1 << (width - 1)
}

/// The greatest fixnum.
pub fn greatest(width: u64) -> i64 {
    !least(width)
}

/// Numbers beyond the limits, the next ones and the farthest. At width 64 nothing lies beyond: these are the limits.
pub fn beyond(width: u64) -> [i64; 4] {
    [least(width).wrapping_sub(1), greatest(width).wrapping_add(1), i64::MIN, i64::MAX]
}

/// Numbers around each limit, some of them beyond it.
pub fn numbers(width: u64) -> Vec<i64> {
    let (least, greatest) = (least(width), greatest(width));
    let root = 1 << (width / 2);
    let mut numbers = vec![0, 1, -1, 2, -2, 3, -3, 7, -7, root, -root, root - 1];
    numbers.extend([least, least + 1, greatest, greatest - 1, greatest.wrapping_add(2)]);
    numbers.extend(beyond(width));
    numbers.extend([least / 2, least / 2 - 1, greatest / 2, greatest / 2 + 1]);
    numbers.extend([0x5555_5555_5555_5555 & greatest, least | 0x3333_3333_3333_3333]);
    numbers
}

/// The most telling of these.
pub fn few_numbers(width: u64) -> Vec<i64> {
    let (least, greatest) = (least(width), greatest(width));
    vec![0, 1, -1, greatest, least, greatest.wrapping_add(1), 0x2491_D5B3_7A6E_4C17 & greatest, -2]
}

/// Positions, distances and counts around each limit.
pub fn positions(width: u64) -> Vec<i64> {
    let w = width as i64;
    let mut positions = vec![-w - 1, -w, 1 - w, -2, -1, 0, 1, 2, w / 2, w - 3, w - 2, w - 1, w, w + 1];
    positions.extend([30, 31, 32, 33, 61, 62, 63, 64, 32_767, 1 << 32, (1 << 32) + 1]);
    positions.extend([least(width), greatest(width)]);
    positions.extend(beyond(width));
    positions
}

pub fn few_positions(width: u64) -> Vec<i64> {
    let w = width as i64;
    vec![-1, 0, 1, 2, w / 2, w - 2, w - 1, w, 31, 32, 64, i64::MIN, least(width), greatest(width)]
}

pub const NEW_BITS: [i64; 8] = [0, 1, 2, -1, 3, 1 << 32, i64::MIN, i64::MAX];

/// An accepted width; the three greatest come more often than the others.
pub fn random_width(random: &mut Random) -> u64 {
    let (least, greatest) = (*WIDTHS.start(), *WIDTHS.end());
    if random.one_in(8) {
        greatest - random.below(3)
    } else {
        least + random.below(greatest - least + 1)
    }
}

/// A random fixnum of any size.
pub fn random_fixnum(random: &mut Random, width: u64) -> i64 {
    let unused = 64 - width + random.below(width);
    random.next_i64() >> unused
}
