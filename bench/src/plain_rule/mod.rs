//! Stored rules in plain Rust, for comparison, with the checks of the library: the whole rule is checked first, then
//! evaluated from its bytes. Nothing is allocated. Refusals carry no place.

mod check;
mod evaluation;
mod operation;

use crate::binding::{Refusal, RuleRefusal, INPUTS};

/// The width that the rule runs at.
pub fn read(rule: &[u8]) -> Result<u64, RuleRefusal> {
    check::width(rule).map_err(|offset| refused(Refusal::Rule, Some(offset as u64)))
}

pub fn evaluate(rule: &[u8], inputs: &[i64; INPUTS]) -> Result<i64, RuleRefusal> {
    let width = read(rule)?;
    evaluation::value(rule, width, inputs).map_err(|refusal| refused(refusal, None))
}

fn refused(refusal: Refusal, offset: Option<u64>) -> RuleRefusal {
    RuleRefusal { refusal, place: None, offset }
}
