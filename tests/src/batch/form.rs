//! The operations as a line can name them: fixnum operations by name, by code, bitwise and flonum operations.

use super::flonum::operation::FLONUM_NAMES;
use crate::operation::{BITWISE_NAMES, FIXNUM_NAMES};

/// How the operation of a line was named.
#[derive(Clone, Copy, Debug, PartialEq, Eq)]
pub enum Form {
    /// A fixnum operation by its name: its code.
    Name(u64),
    Code(u64),
    /// A bitwise operation: its place in `BITWISE_NAMES`.
    Bitwise(usize),
    /// A flonum operation: its place in `FLONUM_NAMES`.
    Flonum(usize),
}

impl Form {
    /// Every form of an existing operation.
    pub fn all() -> impl Iterator<Item = Form> {
        let names = (1..=41).map(Form::Name);
        let codes = (1..=41).map(Form::Code);
        let bitwise = (0..BITWISE_NAMES.len()).map(Form::Bitwise);
        names.chain(codes).chain(bitwise).chain((0..FLONUM_NAMES.len()).map(Form::Flonum))
    }

    /// The form that a word of `ql fx` has if it is a name.
    pub fn fixnum_name(word: &str) -> Option<Form> {
        let place = FIXNUM_NAMES.iter().position(|&name| name == word)?;
        Some(Form::Name(place as u64 + 1))
    }

    pub fn bitwise_name(word: &str) -> Option<Form> {
        BITWISE_NAMES.iter().position(|&(name, _)| name == word).map(Form::Bitwise)
    }

    pub fn flonum_name(word: &str) -> Option<Form> {
        FLONUM_NAMES.iter().position(|&(name, _)| name == word).map(Form::Flonum)
    }

    pub fn shown(self) -> String {
        match self {
            Form::Name(code) => FIXNUM_NAMES[code as usize - 1].to_string(),
            Form::Code(code) => format!("code {code}"),
            Form::Bitwise(place) => BITWISE_NAMES[place].0.to_string(),
            Form::Flonum(place) => FLONUM_NAMES[place].0.to_string(),
        }
    }
}
