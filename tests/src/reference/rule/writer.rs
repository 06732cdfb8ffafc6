//! Writes a tree as the bytes of a rule. Trees that no rule may hold are written too, for the tests.

use super::leb128::{write_signed, write_unsigned};
use super::{Form, Rule, CALL, CONSTANT, INPUT};

pub fn write(rule: &Rule) -> Vec<u8> {
    let mut bytes = Vec::new();
    write_unsigned(rule.stored_width, &mut bytes);
    write_form(&rule.form, &mut bytes);
    bytes
}

/// Appends one form.
pub fn write_form(form: &Form, bytes: &mut Vec<u8>) {
    match form {
        Form::Constant(value) => {
            write_unsigned(CONSTANT, bytes);
            write_signed(*value, bytes);
        }
        Form::Input(index) => {
            write_unsigned(INPUT, bytes);
            write_unsigned(*index as u64, bytes);
        }
        Form::Call { code, args } => {
            write_unsigned(CALL, bytes);
            write_unsigned(*code, bytes);
            write_unsigned(args.len() as u64, bytes);
            args.iter().for_each(|arg| write_form(arg, bytes));
        }
    }
}
