//! The exact results of the limb operations on integers of any size. Numbers are in their domains.

use super::integer::Integer;

pub fn not(x: &Integer) -> Integer {
    Integer::build(x.length(), !x.is_negative(), |i| !x.bit(i))
}

/// Applies `combine` to each bit of both, signs included.
pub fn both(x: &Integer, y: &Integer, combine: impl Fn(bool, bool) -> bool) -> Integer {
    let width = x.length().max(y.length());
    Integer::build(width, combine(x.is_negative(), y.is_negative()), |i| combine(x.bit(i), y.bit(i)))
}

pub fn if_then_else(x: &Integer, y: &Integer, z: &Integer) -> Integer {
    let width = x.length().max(y.length()).max(z.length());
    let negative = if x.is_negative() { y.is_negative() } else { z.is_negative() };
    Integer::build(width, negative, |i| if x.bit(i) { y.bit(i) } else { z.bit(i) })
}

pub fn copy_bit(x: &Integer, position: usize, new: bool) -> Integer {
    let bit = |i| if i == position { new } else { x.bit(i) };
    Integer::build(x.length().max(position + 1), x.is_negative(), bit)
}

pub fn bit_field(x: &Integer, start: usize, end: usize) -> Integer {
    Integer::build(end - start, false, |i| x.bit(start + i))
}

pub fn copy_bit_field(x: &Integer, start: usize, end: usize, source: &Integer) -> Integer {
    replace_field(x, start, end, |i| source.bit(i - start))
}

/// Toward the more significant bits. The count is taken mod the length of the field.
pub fn rotate(x: &Integer, start: usize, end: usize, count: usize) -> Integer {
    if start == end {
        return x.clone();
    }
    let f = end - start;
    let c = count % f;
    replace_field(x, start, end, |i| x.bit(start + (i - start + f - c) % f))
}

pub fn reverse(x: &Integer, start: usize, end: usize) -> Integer {
    replace_field(x, start, end, |i| x.bit(start + end - 1 - i))
}

/// x with bit i replaced by `bit(i)` where start <= i < end.
fn replace_field(x: &Integer, start: usize, end: usize, bit: impl Fn(usize) -> bool) -> Integer {
    let inside = |i: usize| start <= i && i < end;
    Integer::build(x.length().max(end), x.is_negative(), |i| if inside(i) { bit(i) } else { x.bit(i) })
}

/// x * 2^distance.
pub fn shift_left(x: &Integer, distance: usize) -> Integer {
    if x.is_zero() {
        return x.clone();
    }
    Integer::build(x.length() + distance, x.is_negative(), |i| i >= distance && x.bit(i - distance))
}

/// The floor of x / 2^distance.
pub fn shift_right(x: &Integer, distance: usize) -> Integer {
    let width = x.length().saturating_sub(distance);
    Integer::build(width, x.is_negative(), |i| x.bit(i + distance))
}

pub fn bit_count(x: &Integer) -> i64 {
    if x.is_negative() {
        return !bit_count(&not(x));
    }
    (0..x.length()).filter(|&i| x.bit(i)).count() as i64
}

/// -1 for 0. A negative integer has a 1 at its length, if not below.
pub fn first_bit_set(x: &Integer) -> i64 {
    match (0..=x.length()).find(|&i| x.bit(i)) {
        Some(i) => i as i64,
        None => -1,
    }
}
