//! The second implementation: every call, from the rules of R6RS, 01 and 02, and not from the library's code.
//!
//! - `width`: the accepted widths, and what a fixnum is at one
//! - `fixnum`: the fixnum calls, on i128
//! - `fixnum_results`: their exact results
//! - `integer`: an integer of any size as a vector of bits and a sign, and its shortest form in limbs
//! - `limbs`: the limb calls: operands, domains and size
//! - `limb_results`: their exact results
//! - `conversion`: between fixnum and limbs
//! - `output`: what a result does to the output buffer
//! - `lists`: the net count of a list of rotate and reverse calls
//! - `fold`: a running fold over bytes, on the fixnum calls
//! - `flonum`: the flonum calls, on bits
//! - `rule`: stored rules: read, written, and evaluated by the fixnum calls
//! - `wider`: how the answers to one fixnum call at two widths agree

pub mod conversion;
pub mod fixnum;
mod fixnum_results;
pub mod flonum;
pub mod fold;
pub mod integer;
pub mod limb_results;
pub mod limbs;
pub mod lists;
pub mod output;
pub mod rule;
pub mod wider;
pub mod width;

#[cfg(test)]
mod tests;
