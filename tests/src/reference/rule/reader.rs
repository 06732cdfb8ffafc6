//! Reads the bytes of a rule, first to last, up to the first breach.

use super::leb128::{read_signed, read_unsigned, NumberFault};
use super::{is_stored_width, rule_counts, Form, Rule, CALL, CONSTANT, INPUT, INPUTS, MOST_BYTES, MOST_DEPTH};

/// What can offend.
#[derive(Clone, Copy, Debug, PartialEq, Eq)]
pub enum Item {
    /// The number of bytes in all.
    Length,
    Width,
    Tag,
    Constant,
    Input,
    Code,
    Count,
    /// A form where none may stand, for its depth.
    Depth,
    /// The byte after the form.
    Ending,
}

/// How an item offends.
#[derive(Clone, Copy, Debug, PartialEq, Eq)]
pub enum Fault {
    /// As a number.
    Number(NumberFault),
    /// It is none of those that may stand there.
    NotAllowed,
}

#[derive(Clone, Copy, Debug, PartialEq, Eq)]
pub struct Breach {
    /// Where the item begins, or the rule's length if the rule ends early.
    pub offset: usize,
    pub item: Item,
    pub fault: Fault,
}

pub fn read(bytes: &[u8]) -> Result<Rule, Breach> {
    if bytes.len() > MOST_BYTES {
        return Err(Breach { offset: MOST_BYTES, item: Item::Length, fault: Fault::NotAllowed });
    }
    let mut reader = Reader { bytes, at: 0 };
    let stored_width = reader.unsigned(Item::Width, is_stored_width)?;
    let form = reader.form(1)?;
    if reader.at < bytes.len() {
        return Err(reader.not_allowed(Item::Ending));
    }
    Ok(Rule { stored_width, form })
}

struct Reader<'a> {
    bytes: &'a [u8],
    /// Where the next item begins.
    at: usize,
}

impl Reader<'_> {
    fn form(&mut self, depth: usize) -> Result<Form, Breach> {
        if depth > MOST_DEPTH {
            return Err(self.not_allowed(Item::Depth));
        }
        match self.unsigned(Item::Tag, |tag| [CONSTANT, INPUT, CALL].contains(&tag))? {
            CONSTANT => Ok(Form::Constant(self.constant()?)),
            INPUT => Ok(Form::Input(self.unsigned(Item::Input, |index| index < INPUTS as u64)? as usize)),
            _ => self.call(depth),
        }
    }

    fn call(&mut self, depth: usize) -> Result<Form, Breach> {
        let code = self.unsigned(Item::Code, |code| rule_counts(code).is_some())?;
        let is_count = |count: u64| rule_counts(code).is_some_and(|counts| counts.contains(&count));
        let count = self.unsigned(Item::Count, is_count)?;
        let mut args = Vec::new();
        for _ in 0..count {
            args.push(self.form(depth + 1)?);
        }
        Ok(Form::Call { code, args })
    }

    fn unsigned(&mut self, item: Item, is_allowed: impl Fn(u64) -> bool) -> Result<u64, Breach> {
        let number = read_unsigned(&self.bytes[self.at..]);
        let (value, groups) = number.map_err(|fault| self.bad_number(item, fault))?;
        if !is_allowed(value) {
            return Err(self.not_allowed(item));
        }
        self.at += groups;
        Ok(value)
    }

    fn constant(&mut self) -> Result<i64, Breach> {
        let number = read_signed(&self.bytes[self.at..]);
        let (value, groups) = number.map_err(|fault| self.bad_number(Item::Constant, fault))?;
        self.at += groups;
        Ok(value)
    }

    fn bad_number(&self, item: Item, fault: NumberFault) -> Breach {
        let offset = match fault {
            NumberFault::EndsEarly { .. } => self.bytes.len(),
            _ => self.at,
        };
        Breach { offset, item, fault: Fault::Number(fault) }
    }

    fn not_allowed(&self, item: Item) -> Breach {
        Breach { offset: self.at, item, fault: Fault::NotAllowed }
    }
}
