//! Stored rules: bytes that hold a width and one form.
//!
//! - `leb128`: numbers in groups of seven bits, read and written
//! - `reader`: bytes to a tree, or the breach that is met first
//! - `writer`: a tree to bytes
//! - `evaluator`: what a tree comes to on sixteen inputs

pub mod evaluator;
pub mod leb128;
pub mod reader;
pub mod writer;

use super::fixnum::argument_counts;
use super::width::is_width;
use std::ops::RangeInclusive;

/// How many bytes a rule may have.
pub const MOST_BYTES: usize = 4096;

/// How deep forms may be nested. The outermost is at depth 1.
pub const MOST_DEPTH: usize = 32;

/// How many inputs an evaluation takes.
pub const INPUTS: usize = 16;

/// The width that a stored width of 0 means.
pub const DEFAULT_WIDTH: u64 = 30;

/// The tags of the three forms.
pub const CONSTANT: u64 = 0;
pub const INPUT: u64 = 1;
pub const CALL: u64 = 2;

#[derive(Clone, Debug, PartialEq, Eq)]
pub struct Rule {
    pub stored_width: u64,
    pub form: Form,
}

#[derive(Clone, Debug, PartialEq, Eq)]
pub enum Form {
    Constant(i64),
    Input(usize),
    Call { code: u64, args: Vec<Form> },
}

impl Rule {
    /// The width that the rule runs at.
    pub fn width(&self) -> u64 {
        match self.stored_width {
            0 => DEFAULT_WIDTH,
            width => width,
        }
    }
}

impl Form {
    /// Gives the form and all forms inside it to `visit`, each with its depth; this one is at `depth`.
    pub fn each(&self, depth: usize, visit: &mut impl FnMut(&Form, usize)) {
        visit(self, depth);
        if let Form::Call { args, .. } = self {
            args.iter().for_each(|arg| arg.each(depth + 1, visit));
        }
    }
}

pub fn is_stored_width(width: u64) -> bool {
    width == 0 || is_width(width)
}

/// How many arguments a call in a rule may have. None for a code that is unknown, or that has two results.
pub fn rule_counts(code: u64) -> Option<RangeInclusive<u64>> {
    match code {
        18 | 21..=24 => None,
        1..=41 => Some(argument_counts(code)),
        _ => None,
    }
}

/// Every code that a rule may hold, with every number of arguments that it takes.
pub fn rule_calls() -> impl Iterator<Item = (u64, u64)> {
    (1..=41)
        .filter_map(|code| Some((code, rule_counts(code)?)))
        .flat_map(|(code, counts)| counts.map(move |n| (code, n)))
}
