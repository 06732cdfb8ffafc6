//! The description of one call on a stored rule, what the second implementation answers to it, and its text as C.

use crate::call::{c_array, c_pointer, c_signed};
use crate::reference::rule::evaluator::evaluate;
use crate::reference::rule::reader::Breach;
use crate::reference::rule::{Rule, INPUTS};
use crate::refusal::{COUNT, DOMAIN, DONE, NOT_FIXNUM, RULE, SIZE};

#[derive(Clone, Copy, Debug, PartialEq, Eq)]
pub enum RuleOperation {
    Read,
    Evaluate,
}

#[derive(Clone, Copy, Debug)]
pub enum RuleCall<'a> {
    Read(&'a [u8]),
    /// With these inputs, of which there should be sixteen.
    Evaluate(&'a [u8], &'a [i64]),
}

/// The answer of either. The value of a reading is the width; what a call does not answer is 0.
#[derive(Clone, Copy, Debug, PartialEq, Eq)]
pub struct RuleAnswer {
    pub refusal: u64,
    pub place: u64,
    pub offset: u64,
    pub value: i64,
}

impl RuleOperation {
    pub const ALL: [RuleOperation; 2] = [RuleOperation::Read, RuleOperation::Evaluate];

    /// The name of the C function.
    pub fn name(self) -> &'static str {
        match self {
            RuleOperation::Read => "ql_rule_read",
            RuleOperation::Evaluate => "ql_rule_evaluate",
        }
    }

    /// Each refusal number, 0 for done, with each place that it can carry. The arguments of a call are fixnums when it
    /// comes to be made, and no domain is about a first argument.
    pub fn answers(self) -> Vec<(u64, u64)> {
        match self {
            RuleOperation::Read => vec![(DONE, 0), (RULE, 0)],
            RuleOperation::Evaluate => {
                let domain = [0, 2, 3, 4].map(|place| (DOMAIN, place));
                let alone = [DONE, COUNT, NOT_FIXNUM, SIZE, RULE].map(|refusal| (refusal, 0));
                alone.into_iter().chain(domain).collect()
            }
        }
    }
}

impl<'a> RuleCall<'a> {
    pub fn operation(&self) -> RuleOperation {
        match self {
            RuleCall::Read(_) => RuleOperation::Read,
            RuleCall::Evaluate(..) => RuleOperation::Evaluate,
        }
    }

    pub fn rule(&self) -> &'a [u8] {
        match *self {
            RuleCall::Read(rule) | RuleCall::Evaluate(rule, _) => rule,
        }
    }

    /// The answer of the second implementation, given what its reader makes of the rule.
    pub fn answer(&self, reading: &Result<Rule, Breach>) -> RuleAnswer {
        match (self, reading) {
            (RuleCall::Evaluate(_, inputs), _) if inputs.len() != INPUTS => refused(COUNT, 0, 0),
            (_, Err(breach)) => refused(RULE, 0, breach.offset as u64),
            (RuleCall::Read(_), Ok(rule)) => done(rule.width() as i64),
            (RuleCall::Evaluate(_, inputs), Ok(rule)) => {
                let inputs = (*inputs).try_into().expect("there are sixteen inputs");
                evaluate(rule, inputs).map_or_else(|(refusal, place)| refused(refusal, place, 0), done)
            }
        }
    }

    /// The call as C statements.
    pub fn as_c(&self) -> String {
        let rule = self.rule();
        let declared = c_array("uint8_t", "rule", rule);
        let (name, rule) = (self.operation().name(), c_pointer("rule", rule));
        match self {
            RuleCall::Read(_) => format!("{declared}{name}({rule});"),
            RuleCall::Evaluate(_, inputs) => {
                let numbers: Vec<String> = inputs.iter().map(|&n| c_signed(n)).collect();
                let inputs = c_pointer("inputs", inputs);
                format!("{declared}int64_t inputs[] = {{{}}};\n{name}({rule}, {inputs});", numbers.join(", "))
            }
        }
    }
}

fn done(value: i64) -> RuleAnswer {
    RuleAnswer { refusal: DONE, place: 0, offset: 0, value }
}

fn refused(refusal: u64, place: u64, offset: u64) -> RuleAnswer {
    RuleAnswer { refusal, place, offset, value: 0 }
}
