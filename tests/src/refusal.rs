//! The refusal numbers.

pub const DONE: u64 = 0;
/// The width is not accepted (`reference::width`).
pub const WIDTH: u64 = 1;
/// The code is not 1 to 41.
pub const CODE: u64 = 2;
/// The argument count is not allowed for the code.
pub const COUNT: u64 = 3;
/// A counted argument is not a fixnum.
pub const NOT_FIXNUM: u64 = 4;
/// An argument is outside its domain, or the exact result of fx- is not a fixnum.
pub const DOMAIN: u64 = 5;
/// The exact result is not a fixnum, or has over 1,024 limbs.
pub const SIZE: u64 = 6;
/// An operand has 0 limbs or over 1,024, or is padded.
pub const OPERAND: u64 = 7;
/// The shortest result is longer than the capacity.
pub const ROOM: u64 = 8;
/// The record of a fold is unopened: opening with its own fields would be refused.
pub const UNOPENED: u64 = 9;
/// The bytes are no rule.
pub const RULE: u64 = 10;
