//! Parts that the edges of rules are made of.

use quebralua_reference::reference::rule::leb128::write_groups;
use quebralua_reference::reference::rule::writer::write;
use quebralua_reference::reference::rule::{Form, Rule, INPUTS};

/// Small inputs, all different.
pub const SMALL: [i64; INPUTS] = [0, 1, 2, 3, 4, 5, 6, 7, -1, -2, -3, -4, 20, 21, 22, 23];

/// Arguments that every code takes, and a fifth for a call with too many.
pub const LEGAL: [i64; 5] = [5, 1, 1, 0, 0];

/// The bytes of a rule.
pub fn rule(stored_width: u64, form: Form) -> Vec<u8> {
    write(&Rule { stored_width, form })
}

pub fn call(code: u64, args: Vec<Form>) -> Form {
    Form::Call { code, args }
}

pub fn constants(values: &[i64]) -> Vec<Form> {
    values.iter().map(|&value| Form::Constant(value)).collect()
}

/// The number in exactly that many groups.
pub fn in_groups(value: i128, groups: usize) -> Vec<u8> {
    let mut bytes = Vec::new();
    write_groups(value, groups, &mut bytes);
    bytes
}
