//! The sample computations of R6RS, where they decide, against the results taken bit by bit.

use super::{any_size, call, small};
use crate::fixnum_arguments::random_width;
use crate::operation::Operation::{self, *};
use crate::random::Random;

fn ok(operation: Operation, operands: &[i128], numbers: &[i64]) -> i128 {
    small(operation, operands, numbers).expect("a legal call")
}

fn shifted(x: i128, distance: i64) -> i128 {
    ok(Shift, &[x], &[distance])
}

fn mask(start: i64, end: i64) -> i128 {
    let below_end = ok(Not, &[shifted(-1, end)], &[]);
    ok(And, &[shifted(-1, start), below_end], &[])
}

fn sample_if(x: i128, y: i128, z: i128) -> i128 {
    ok(Ior, &[ok(And, &[x, y], &[]), ok(And, &[ok(Not, &[x], &[]), z], &[])], &[])
}

fn sample_bit_field(x: i128, start: i64, end: i64) -> i128 {
    shifted(ok(And, &[x, mask(0, end)], &[]), -start)
}

fn sample_copy_bit_field(to: i128, start: i64, end: i64, from: i128) -> i128 {
    sample_if(mask(start, end), shifted(from, start), to)
}

fn sample_rotate(x: i128, start: i64, end: i64, count: i64) -> i128 {
    let width = end - start;
    if width <= 0 {
        return x;
    }
    let count = count.rem_euclid(width);
    let field0 = sample_bit_field(x, start, end);
    let field = ok(Ior, &[shifted(field0, count), shifted(field0, count - width)], &[]);
    sample_copy_bit_field(x, start, end, field)
}

#[test]
fn limb_samples() {
    let mut random = Random::new(1);
    for _ in 0..20_000 {
        let (x, y, z) = (any_size(&mut random, 60), any_size(&mut random, 60), any_size(&mut random, 60));
        let (start, more) = (random.between(0, 33), random.between(0, 30));
        let (end, count) = (start + more, random.between(0, 70));
        let bit = random.between(0, 1);
        assert_eq!(ok(If, &[x, y, z], &[]), sample_if(x, y, z));
        let copied = sample_if(shifted(1, end), shifted(i128::from(bit), end), x);
        assert_eq!(ok(CopyBit, &[x], &[end, bit]), copied);
        let set = ok(And, &[shifted(1, end), x], &[]) != 0;
        assert_eq!(ok(BitSet, &[x], &[end]), i128::from(set));
        assert_eq!(ok(BitField, &[x], &[start, end]), sample_bit_field(x, start, end));
        assert_eq!(ok(CopyBitField, &[x, y], &[start, end]), sample_copy_bit_field(x, start, end, y));
        assert_eq!(ok(Rotate, &[x], &[start, end, count]), sample_rotate(x, start, end, count));
    }
}

#[test]
fn fixnum_samples() {
    let mut random = Random::new(2);
    for _ in 0..20_000 {
        let width = random_width(&mut random);
        let x = any_size(&mut random, width - 1);
        let y = any_size(&mut random, width - 1);
        let start = random.between(0, width as i64 - 1);
        let end = random.between(start, width as i64 - 1);
        let fx = |code, args: &[i64]| call(width, code, args);
        let (a, b) = (x as i64, y as i64);
        let field = (x & ((1 << end) - 1)) >> start;
        assert_eq!(fx(35, &[a, start, end]), (0, field as i64, 0));
        let inside = (1 << end) - (1 << start);
        let copied = (x & !inside) | ((y << start) & inside);
        assert_eq!(fx(36, &[a, start, end, b]), (0, copied as i64, 0));
        let count = random.between(0, end - start);
        let moved = (field << count) | (field >> (end - start - count));
        let rotated = (x & !inside) | ((moved << start) & inside);
        assert_eq!(fx(40, &[a, start, end, count]), (0, rotated as i64, 0));
    }
}
