//! What an answer line of `ql batch` has to be, and which part of it is compared.

use super::form::Form;
use super::reason::Reason;
use std::fmt;

/// The most bytes of a line.
pub const LONGEST_LINE: usize = 65_535;
/// How much of a word that cannot be read is compared: the command may cut a longer one.
const SHOWN: usize = 32;

#[derive(Clone, Debug, PartialEq, Eq)]
pub enum Expected {
    /// The line has no word.
    Empty,
    Done(Form, String),
    Refused(u64, Reason),
    /// The number of the first word that cannot be read, and the word.
    Unreadable(usize, String),
    /// The number of the word that is missing.
    Missing(usize),
    /// The line is too long.
    TooLong,
}

use Expected::*;

impl Expected {
    pub fn is_met_by(&self, answer: &[u8]) -> bool {
        match self {
            Empty => answer.is_empty(),
            Done(_, text) => answer == text.as_bytes(),
            TooLong => answer == format!("ql: a line has more than {LONGEST_LINE} bytes").as_bytes(),
            Refused(number, reason) => {
                let rest = answer.strip_prefix(format!("refused {number}: ").as_bytes());
                rest.is_some_and(|rest| reason.is_met_by(rest))
            }
            Missing(place) => answer.starts_with(format!("ql: word {place} is missing: ").as_bytes()),
            Unreadable(place, word) if word.len() <= SHOWN => {
                answer.starts_with(format!("ql: word {place} is '{word}', and ").as_bytes())
            }
            Unreadable(place, word) => {
                let start = format!("ql: word {place} is '{}", &word[..SHOWN]);
                answer.starts_with(start.as_bytes()) && answer.windows(7).any(|part| part == b"', and ")
            }
        }
    }

    /// The exit status where this is the worst answer.
    pub fn status(&self) -> i32 {
        match self {
            Empty | Done(..) => 0,
            Refused(..) => 1,
            Unreadable(..) | Missing(_) | TooLong => 2,
        }
    }
}

impl fmt::Display for Expected {
    fn fmt(&self, f: &mut fmt::Formatter) -> fmt::Result {
        match self {
            Empty => write!(f, "an empty line"),
            Done(_, text) => write!(f, "{text}"),
            Refused(number, reason) => write!(f, "refused {number}: {reason}"),
            Unreadable(place, word) => write!(f, "ql: word {place} is '{word}', and .."),
            Missing(place) => write!(f, "ql: word {place} is missing: .."),
            TooLong => write!(f, "ql: a line has more than {LONGEST_LINE} bytes"),
        }
    }
}

#[cfg(test)]
mod tests {
    use super::*;

    #[test]
    fn answers_are_told_apart() {
        let refused = Refused(3, Reason::Free);
        assert!(refused.is_met_by(b"refused 3: x") && !refused.is_met_by(b"refused 31: x"));
        let refused = Refused(5, Reason::NoArgument);
        assert!(refused.is_met_by(b"refused 5: x") && !refused.is_met_by(b"refused 5: argument 1 is 2: x"));
        let short = Unreadable(4, "x".to_string());
        assert!(short.is_met_by(b"ql: word 4 is 'x', and a number") && !short.is_met_by(b"ql: word 4 is 'xy', and"));
        let long = Unreadable(4, "x".repeat(50));
        assert!(long.is_met_by(format!("ql: word 4 is '{}..', and a number", "x".repeat(40)).as_bytes()));
        assert!(!long.is_met_by(format!("ql: word 5 is '{}', and a number", "x".repeat(50)).as_bytes()));
        assert!(Empty.is_met_by(b"") && !Empty.is_met_by(b" "));
    }
}
