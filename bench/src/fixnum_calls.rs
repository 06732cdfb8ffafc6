//! The fixnum calls: ours by their codes, and plain Rust's.

use Argument::*;

use crate::fixnum_case::{Argument, Call};
use crate::plain_fixnum::{arithmetic::*, compare::*, division::*, field::*, logical::*, shift::*};

const ONE: &[Argument] = &[Number];
const TWO: &[Argument] = &[Number, Number];
const THREE: &[Argument] = &[Number, Number, Number];
const FIELD: &[Argument] = &[Number, Position, Position];

/// The operations in the order of their codes, which begin at 1. Those that take several numbers of arguments get two.
#[rustfmt::skip]
pub const CALLS: [Call; 41] = [
    Call { name: "fx=?", arguments: TWO, plain: |w, &[x, y, ..]| equal(w, x, y) },
    Call { name: "fx>?", arguments: TWO, plain: |w, &[x, y, ..]| greater(w, x, y) },
    Call { name: "fx<?", arguments: TWO, plain: |w, &[x, y, ..]| less(w, x, y) },
    Call { name: "fx>=?", arguments: TWO, plain: |w, &[x, y, ..]| greater_or_equal(w, x, y) },
    Call { name: "fx<=?", arguments: TWO, plain: |w, &[x, y, ..]| less_or_equal(w, x, y) },
    Call { name: "fxzero?", arguments: ONE, plain: |w, &[x, ..]| zero(w, x) },
    Call { name: "fxpositive?", arguments: ONE, plain: |w, &[x, ..]| positive(w, x) },
    Call { name: "fxnegative?", arguments: ONE, plain: |w, &[x, ..]| negative(w, x) },
    Call { name: "fxodd?", arguments: ONE, plain: |w, &[x, ..]| odd(w, x) },
    Call { name: "fxeven?", arguments: ONE, plain: |w, &[x, ..]| even(w, x) },
    Call { name: "fxmax", arguments: TWO, plain: |w, &[x, y, ..]| max(w, x, y) },
    Call { name: "fxmin", arguments: TWO, plain: |w, &[x, y, ..]| min(w, x, y) },
    Call { name: "fx+", arguments: TWO, plain: |w, &[x, y, ..]| add(w, x, y) },
    Call { name: "fx*", arguments: TWO, plain: |w, &[x, y, ..]| multiply(w, x, y) },
    Call { name: "fx-", arguments: TWO, plain: |w, &[x, y, ..]| subtract(w, x, y) },
    Call { name: "fxdiv", arguments: TWO, plain: |w, &[x, y, ..]| div(w, x, y) },
    Call { name: "fxmod", arguments: TWO, plain: |w, &[x, y, ..]| modulo(w, x, y) },
    Call { name: "fxdiv-and-mod", arguments: TWO, plain: |w, &[x, y, ..]| div_and_mod(w, x, y) },
    Call { name: "fxdiv0", arguments: TWO, plain: |w, &[x, y, ..]| div0(w, x, y) },
    Call { name: "fxmod0", arguments: TWO, plain: |w, &[x, y, ..]| mod0(w, x, y) },
    Call { name: "fxdiv0-and-mod0", arguments: TWO, plain: |w, &[x, y, ..]| div0_and_mod0(w, x, y) },
    Call { name: "fx+/carry", arguments: THREE, plain: |w, &[x, y, z, _]| add_carry(w, x, y, z) },
    Call { name: "fx-/carry", arguments: THREE, plain: |w, &[x, y, z, _]| subtract_carry(w, x, y, z) },
    Call { name: "fx*/carry", arguments: THREE, plain: |w, &[x, y, z, _]| multiply_carry(w, x, y, z) },
    Call { name: "fxnot", arguments: ONE, plain: |w, &[x, ..]| not(w, x) },
    Call { name: "fxand", arguments: TWO, plain: |w, &[x, y, ..]| and(w, x, y) },
    Call { name: "fxior", arguments: TWO, plain: |w, &[x, y, ..]| ior(w, x, y) },
    Call { name: "fxxor", arguments: TWO, plain: |w, &[x, y, ..]| xor(w, x, y) },
    Call { name: "fxif", arguments: THREE, plain: |w, &[x, y, z, _]| if_(w, x, y, z) },
    Call { name: "fxbit-count", arguments: ONE, plain: |w, &[x, ..]| bit_count(w, x) },
    Call { name: "fxlength", arguments: ONE, plain: |w, &[x, ..]| length(w, x) },
    Call { name: "fxfirst-bit-set", arguments: ONE, plain: |w, &[x, ..]| first_bit_set(w, x) },
    Call { name: "fxbit-set?", arguments: &[Number, Position], plain: |w, &[x, k, ..]| bit_set(w, x, k) },
    Call { name: "fxcopy-bit", arguments: &[Number, Position, Bit], plain: |w, &[x, k, b, _]| copy_bit(w, x, k, b) },
    Call { name: "fxbit-field", arguments: FIELD, plain: |w, &[x, s, e, _]| bit_field(w, x, s, e) },
    Call {
        name: "fxcopy-bit-field",
        arguments: &[Number, Position, Position, Number],
        plain: |w, &[x, s, e, y]| copy_bit_field(w, x, s, e, y),
    },
    Call { name: "fxarithmetic-shift", arguments: &[Number, Distance], plain: |w, &[x, d, ..]| shift(w, x, d) },
    Call { name: "fxarithmetic-shift-left", arguments: &[Number, Position], plain: |w, &[x, d, ..]| shift_left(w, x, d) },
    Call { name: "fxarithmetic-shift-right", arguments: &[Number, Position], plain: |w, &[x, d, ..]| shift_right(w, x, d) },
    Call {
        name: "fxrotate-bit-field",
        arguments: &[Number, Position, Position, Position],
        plain: |w, &[x, s, e, c]| rotate(w, x, s, e, c),
    },
    Call { name: "fxreverse-bit-field", arguments: FIELD, plain: |w, &[x, s, e, _]| reverse(w, x, s, e) },
];
