//! The lines of `fl`: how many were compared, how they were answered, and what their numbers have shown.

use quebralua_reference::batch::answer::words;
use quebralua_reference::batch::expected::Expected;
use quebralua_reference::batch::flonum::cases::{all, cases};
use quebralua_reference::refusal::{COUNT, NOT_FIXNUM, WIDTH};
use std::collections::BTreeMap;
use std::fmt;

/// The operation, and the last of six numbers of flextremes.
const UNREADABLE: std::ops::RangeInclusive<usize> = 2..=8;
/// The operation, and the integer of fixnum->flonum.
const MISSING: std::ops::RangeInclusive<usize> = 2..=4;
const REFUSALS: [u64; 3] = [WIDTH, COUNT, NOT_FIXNUM];

pub struct FlonumTally {
    lines: u64,
    done: u64,
    /// By how a line was answered: done by operation, refused by number, unreadable and missing by word. That every
    /// operation is done is seen by `Tally`.
    answers: BTreeMap<String, u64>,
    /// In the order of `all`.
    cases: Vec<(&'static str, u64)>,
}

impl FlonumTally {
    pub fn new() -> FlonumTally {
        let refused = REFUSALS.iter().map(|number| format!("refused {number}"));
        let unreadable = UNREADABLE.map(|word| format!("word {word} unreadable"));
        let missing = MISSING.map(|word| format!("word {word} missing"));
        let answers = refused.chain(unreadable).chain(missing).map(|name| (name, 0)).collect();
        FlonumTally { lines: 0, done: 0, answers, cases: all().map(|case| (case, 0)).collect() }
    }

    /// Counts the line if it is one of `fl`.
    pub fn line(&mut self, line: &str, answer: &Expected) {
        let words = words(line);
        if words.first() != Some(&"fl") {
            return;
        }
        self.lines += 1;
        let name = match answer {
            Expected::Done(form, _) => format!("done {}", form.shown()),
            Expected::Refused(number, _) => format!("refused {number}"),
            Expected::Unreadable(word, _) => format!("word {word} unreadable"),
            Expected::Missing(word) => format!("word {word} missing"),
            Expected::Empty | Expected::TooLong => return,
        };
        self.done += u64::from(matches!(answer, Expected::Done(..)));
        *self.answers.entry(name).or_default() += 1;
        for case in cases(line, answer) {
            let row = self.cases.iter_mut().find(|row| row.0 == case).expect("one of all cases");
            row.1 += 1;
        }
    }

    /// Every answer and case that no compared line has shown.
    pub fn missing(&self) -> impl Iterator<Item = String> + '_ {
        let answers = self.answers.iter().filter(|row| *row.1 == 0).map(|row| format!("fl: {}", row.0));
        answers.chain(self.cases.iter().filter(|row| row.1 == 0).map(|row| format!("fl: {}", row.0)))
    }
}

impl fmt::Display for FlonumTally {
    fn fmt(&self, f: &mut fmt::Formatter) -> fmt::Result {
        write!(f, "lines of fl {}: done {}", self.lines, self.done)?;
        self.answers.iter().try_for_each(|(name, count)| write!(f, "\n  {name:48}{count:>10}"))?;
        write!(f, "\ntheir numbers")?;
        self.cases.iter().try_for_each(|(name, count)| write!(f, "\n  {name:48}{count:>10}"))
    }
}
