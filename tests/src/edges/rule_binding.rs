//! Rules as a program uses them by the binding. The results are worked out by hand: input 3 is 30, and 30 - 2 is 28.

use crate::binding::{rule_evaluate, rule_evaluate_any, rule_read, Refusal, RuleRefusal, INPUTS};
use crate::report::difference;
use std::fmt::Debug;

/// (fx+ input-3 -2) at the width that 0 stands for.
const SUM: [u8; 8] = [0, 2, 13, 2, 1, 3, 0, 0x7E];

pub fn run() {
    let tens: [i64; INPUTS] = std::array::from_fn(|i| 10 * i as i64);
    require("sum", rule_evaluate(&SUM, &tens).result(), Ok(28));
    require("width", rule_read(&SUM).result(), Ok(30));
    require("cut off", rule_read(&SUM[..7]).result(), refused(Refusal::Rule, None, Some(7)));
    require("no rule", rule_evaluate(&[], &tens).result(), refused(Refusal::Rule, None, Some(0)));
    require("bad code", rule_evaluate(&[24, 2, 18], &tens).result(), refused(Refusal::Rule, None, Some(2)));
    let quotient = [24, 2, 16, 2, 1, 3, 0, 0];
    require("by 0", rule_evaluate(&quotient, &tens).result(), refused(Refusal::Domain, Some(2), None));
    let named = rule_evaluate(&[24, 1, 0], &[1 << 23; INPUTS]).result();
    require("no fixnum", named, refused(Refusal::NotFixnum, None, None));
    let fifteen = rule_evaluate_any(&SUM, &tens[1..]).result();
    require("fifteen inputs", fifteen, refused(Refusal::ArgumentCount, None, None));
    require("with ?", short(&quotient, &tens), Err(Refusal::Domain));
}

fn short(rule: &[u8], inputs: &[i64; INPUTS]) -> Result<i64, Refusal> {
    rule_read(rule).result()?;
    Ok(rule_evaluate(rule, inputs).result()?)
}

fn refused<T>(refusal: Refusal, place: Option<u64>, offset: Option<u64>) -> Result<T, RuleRefusal> {
    Err(RuleRefusal { refusal, place, offset })
}

fn require<T: Debug + PartialEq>(name: &str, got: T, expected: T) {
    if got != expected {
        difference(&format!("the binding: {name}"), &format!("{expected:?}"), &format!("{got:?}"));
    }
}
