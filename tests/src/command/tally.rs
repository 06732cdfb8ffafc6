//! How many lines were compared, and how they were answered.

use crate::flonum_tally::FlonumTally;
use quebralua_reference::batch::expected::Expected;
use quebralua_reference::batch::form::Form;
use quebralua_reference::batch::reason::{role, Reason};
use quebralua_reference::fixnum_answers::fixnum_answers;
use std::collections::BTreeMap;
use std::fmt;

/// The refusals that the command can answer: it has room for every result, so that 8 never comes.
const REFUSALS: std::ops::RangeInclusive<usize> = 1..=7;
/// The word of the last of five arguments of `fx`.
const LAST_WORD: usize = 8;
/// The integer of fixnum->flonum.
const LAST_MISSING: usize = 4;

pub struct Tally {
    empty: u64,
    /// Done calls by operation, in the order of `Form::all`.
    done: Vec<(Form, u64)>,
    refused: [u64; 9],
    /// Refused fixnum calls by the argument that the reason begins with.
    arguments: BTreeMap<String, u64>,
    /// By the number of the word.
    unreadable: [u64; LAST_WORD + 1],
    missing: [u64; LAST_MISSING + 1],
    too_long: u64,
    /// The lines of `fl` once more.
    flonums: FlonumTally,
    /// Runs by exit status.
    statuses: [u64; 3],
}

impl Tally {
    pub fn new() -> Tally {
        Tally {
            empty: 0,
            done: Form::all().map(|form| (form, 0)).collect(),
            refused: [0; 9],
            arguments: arguments().map(|name| (name, 0)).collect(),
            unreadable: [0; LAST_WORD + 1],
            missing: [0; LAST_MISSING + 1],
            too_long: 0,
            flonums: FlonumTally::new(),
            statuses: [0; 3],
        }
    }

    pub fn line(&mut self, line: &str, answer: &Expected) {
        self.flonums.line(line, answer);
        if let Expected::Refused(_, Reason::Argument { place, role, .. }) = answer {
            *self.arguments.entry(argument(*place, *role)).or_default() += 1;
        }
        let place = match answer {
            Expected::Empty => &mut self.empty,
            Expected::Done(form, _) => self.done_with(*form),
            Expected::Refused(number, _) => &mut self.refused[*number as usize],
            Expected::Unreadable(word, _) => &mut self.unreadable[*word],
            Expected::Missing(word) => &mut self.missing[*word],
            Expected::TooLong => &mut self.too_long,
        };
        *place += 1;
    }

    pub fn status(&mut self, status: i32) {
        self.statuses[status as usize] += 1;
    }

    fn done_with(&mut self, form: Form) -> &mut u64 {
        let place = self.done.iter_mut().find(|row| row.0 == form).expect("a done call has an operation");
        &mut place.1
    }

    /// Every kind of answer that no compared line has shown.
    pub fn missing(&self) -> Vec<String> {
        let done = self.done.iter().map(|(form, count)| (format!("{}: a done call", form.shown()), *count));
        let refused = REFUSALS.map(|number| (format!("refused {number}"), self.refused[number]));
        let arguments = self.arguments.iter().map(|(name, count)| (format!("refused for argument {name}"), *count));
        let unreadable = (1..=LAST_WORD).map(|word| (format!("word {word} unreadable"), self.unreadable[word]));
        let missing = (2..=LAST_MISSING).map(|word| (format!("word {word} missing"), self.missing[word]));
        let statuses = (0..=2).map(|status| (format!("exit status {status}"), self.statuses[status]));
        let others = [("an empty line", self.empty), ("a line that is too long", self.too_long)];
        let others = others.map(|(name, count)| (name.to_string(), count));
        let all = done.chain(refused).chain(arguments).chain(unreadable).chain(missing).chain(statuses).chain(others);
        all.filter(|(_, count)| *count == 0).map(|(name, _)| name).chain(self.flonums.missing()).collect()
    }
}

/// An argument by its place and role.
fn argument(place: u64, role: Option<&str>) -> String {
    let role = role.map_or(String::new(), |role| format!(" ({role})"));
    format!("{place}{role}")
}

/// Every argument that a reason can begin with.
fn arguments() -> impl Iterator<Item = String> {
    let places = |code| fixnum_answers(code).into_iter().map(|(_, place)| place).filter(|&place| place != 0);
    (1..=41).flat_map(move |code| places(code).map(move |place| argument(place, role(code, place))))
}

impl fmt::Display for Tally {
    fn fmt(&self, f: &mut fmt::Formatter) -> fmt::Result {
        let done: u64 = self.done.iter().map(|row| row.1).sum();
        let [refused, unreadable, missing] =
            [&self.refused[..], &self.unreadable, &self.missing].map(|counts| counts.iter().sum::<u64>());
        let all = done + refused + unreadable + missing + self.empty + self.too_long;
        writeln!(f, "lines compared {all}: done {done}, empty {}, too long {}", self.empty, self.too_long)?;
        write!(f, "refused {refused}, by number:")?;
        REFUSALS.into_iter().try_for_each(|number| write!(f, " {number}: {}", self.refused[number]))?;
        write!(f, "\nof these by argument:")?;
        self.arguments.iter().try_for_each(|(name, count)| write!(f, " {name}: {count}"))?;
        write!(f, "\nunreadable {unreadable}, by word:")?;
        (1..=LAST_WORD).try_for_each(|word| write!(f, " {word}: {}", self.unreadable[word]))?;
        write!(f, "\na word missing {missing}\nruns by exit status:")?;
        (0..=2).try_for_each(|status| write!(f, " {status}: {}", self.statuses[status]))?;
        write!(f, "\n{}", self.flonums)
    }
}
