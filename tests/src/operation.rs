//! The operations: the limb calls and the conversions, and the Scheme names of the fixnum codes and of the limb calls.

#[derive(Clone, Copy, Debug, PartialEq, Eq)]
pub enum Operation {
    Not,
    And,
    Ior,
    Xor,
    If,
    CopyBit,
    BitField,
    CopyBitField,
    Shift,
    ShiftLeft,
    ShiftRight,
    Rotate,
    Reverse,
    Trim,
    BitCount,
    Length,
    FirstBitSet,
    BitSet,
    FixnumToLimbs,
    LimbsToFixnum,
}

use Operation::*;

impl Operation {
    pub const ALL: [Operation; 20] = [
        Not,
        And,
        Ior,
        Xor,
        If,
        CopyBit,
        BitField,
        CopyBitField,
        Shift,
        ShiftLeft,
        ShiftRight,
        Rotate,
        Reverse,
        Trim,
        BitCount,
        Length,
        FirstBitSet,
        BitSet,
        FixnumToLimbs,
        LimbsToFixnum,
    ];

    /// The name of the C function.
    pub fn name(self) -> &'static str {
        match self {
            Not => "ql_bitwise_not",
            And => "ql_bitwise_and",
            Ior => "ql_bitwise_ior",
            Xor => "ql_bitwise_xor",
            If => "ql_bitwise_if",
            CopyBit => "ql_bitwise_copy_bit",
            BitField => "ql_bitwise_bit_field",
            CopyBitField => "ql_bitwise_copy_bit_field",
            Shift => "ql_bitwise_shift",
            ShiftLeft => "ql_bitwise_shift_left",
            ShiftRight => "ql_bitwise_shift_right",
            Rotate => "ql_bitwise_rotate",
            Reverse => "ql_bitwise_reverse",
            Trim => "ql_bitwise_trim",
            BitCount => "ql_bitwise_bit_count",
            Length => "ql_bitwise_length",
            FirstBitSet => "ql_bitwise_first_bit_set",
            BitSet => "ql_bitwise_bit_set",
            FixnumToLimbs => "ql_fixnum_to_limbs",
            LimbsToFixnum => "ql_limbs_to_fixnum",
        }
    }

    /// How many operands in limbs it takes.
    pub fn operands(self) -> usize {
        match self {
            If => 3,
            And | Ior | Xor | CopyBitField => 2,
            FixnumToLimbs => 0,
            _ => 1,
        }
    }

    /// How many 64-bit numbers it takes. They stand after the first operand.
    pub fn numbers(self) -> usize {
        match self {
            Rotate => 3,
            CopyBit | BitField | CopyBitField | Reverse => 2,
            Shift | ShiftLeft | ShiftRight | BitSet | FixnumToLimbs => 1,
            _ => 0,
        }
    }

    /// Whether the argument in that place, counted from 0, is a 64-bit number.
    pub fn is_number(self, place: usize) -> bool {
        (1..=self.numbers()).contains(&place)
    }

    /// Whether it takes a width, before all else.
    pub fn takes_width(self) -> bool {
        matches!(self, FixnumToLimbs | LimbsToFixnum)
    }

    /// Whether its result is written to an output buffer. The others answer a value.
    pub fn writes(self) -> bool {
        !matches!(self, BitCount | Length | FirstBitSet | BitSet | LimbsToFixnum)
    }
}

/// The Scheme names of the codes 1 to 41, in order.
pub const FIXNUM_NAMES: [&str; 41] = [
    "fx=?",
    "fx>?",
    "fx<?",
    "fx>=?",
    "fx<=?",
    "fxzero?",
    "fxpositive?",
    "fxnegative?",
    "fxodd?",
    "fxeven?",
    "fxmax",
    "fxmin",
    "fx+",
    "fx*",
    "fx-",
    "fxdiv",
    "fxmod",
    "fxdiv-and-mod",
    "fxdiv0",
    "fxmod0",
    "fxdiv0-and-mod0",
    "fx+/carry",
    "fx-/carry",
    "fx*/carry",
    "fxnot",
    "fxand",
    "fxior",
    "fxxor",
    "fxif",
    "fxbit-count",
    "fxlength",
    "fxfirst-bit-set",
    "fxbit-set?",
    "fxcopy-bit",
    "fxbit-field",
    "fxcopy-bit-field",
    "fxarithmetic-shift",
    "fxarithmetic-shift-left",
    "fxarithmetic-shift-right",
    "fxrotate-bit-field",
    "fxreverse-bit-field",
];

/// The Scheme names of the limb calls. Scheme has no trim: its integers have one spelling.
pub const BITWISE_NAMES: [(&str, Operation); 17] = [
    ("bitwise-not", Not),
    ("bitwise-and", And),
    ("bitwise-ior", Ior),
    ("bitwise-xor", Xor),
    ("bitwise-if", If),
    ("bitwise-bit-count", BitCount),
    ("bitwise-length", Length),
    ("bitwise-first-bit-set", FirstBitSet),
    ("bitwise-bit-set?", BitSet),
    ("bitwise-copy-bit", CopyBit),
    ("bitwise-bit-field", BitField),
    ("bitwise-copy-bit-field", CopyBitField),
    ("bitwise-arithmetic-shift", Shift),
    ("bitwise-arithmetic-shift-left", ShiftLeft),
    ("bitwise-arithmetic-shift-right", ShiftRight),
    ("bitwise-rotate-bit-field", Rotate),
    ("bitwise-reverse-bit-field", Reverse),
];
