//! Random rules that are accepted: changed, cut off and taken to every width, each compared with the second
//! implementation; random bytes; and the laws of rules, by the library's answers alone.

mod changed;
mod laws;

use crate::checker::Checker;
use crate::options::Options;
use laws::LAWS;
use quebralua_reference::random_arguments::rule::{accepted, any_inputs};
use quebralua_reference::random_arguments::rule_bytes::any_bytes;
use std::fmt;

/// How many strings of random bytes there are to one rule.
const STRINGS: u64 = 20;

/// How often each law was compared.
pub struct Laws {
    rules: u64,
    /// In the order of `LAWS`.
    counts: [u64; LAWS.len()],
}

pub fn run(checker: &mut Checker, options: &Options) -> Laws {
    let mut laws = Laws { rules: options.rules, counts: [0; LAWS.len()] };
    for _ in 0..options.rules {
        let made = accepted(&mut checker.random);
        checker.read_and_evaluate(&made.bytes, &made.inputs);
        changed::run(checker, &made, options.all_changes);
        for (count, (_, law)) in laws.counts.iter_mut().zip(LAWS) {
            *count += law(checker, &made);
        }
        (0..STRINGS).for_each(|_| random_bytes(checker));
    }
    laws
}

fn random_bytes(checker: &mut Checker) {
    let (bytes, inputs) = (any_bytes(&mut checker.random), any_inputs(&mut checker.random));
    checker.read_and_evaluate(&bytes, &inputs);
}

impl Laws {
    /// Every law that was never compared.
    pub fn missing(&self) -> Vec<String> {
        let laws = LAWS.iter().zip(self.counts).filter(|&(_, count)| count == 0);
        laws.map(|((name, _), _)| format!("rules: {name} never compared")).collect()
    }
}

impl fmt::Display for Laws {
    fn fmt(&self, f: &mut fmt::Formatter) -> fmt::Result {
        let laws: Vec<String> =
            LAWS.iter().zip(self.counts).map(|((name, _), count)| format!("{name} {count}")).collect();
        write!(f, "laws of {} rules: {}", self.rules, laws.join(", "))
    }
}
