//! Random arguments, legal and not, most of them near a limit.

pub mod fixnum;
pub mod flonum;
pub mod fold;
pub mod limbs;
pub mod rule;
pub mod rule_bytes;
mod rule_refused;
