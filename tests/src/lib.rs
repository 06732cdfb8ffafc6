//! The second implementation of every call, the descriptions of calls that the tests compare, and the lines of `ql batch`.
//! Nothing here links the C library.

pub mod batch;
pub mod call;
pub mod fixnum_answers;
pub mod fixnum_arguments;
pub mod flonum_call;
pub mod flonum_kinds;
pub mod flonum_values;
pub mod fold_call;
pub mod operation;
pub mod random;
pub mod random_arguments;
pub mod reference;
pub mod refusal;
pub mod rule_call;
pub mod spellings;
