//! A stored rule as a tree, which gives its bytes and the same as a Scheme expression.

use std::fmt;

/// An operation that rules are made of.
pub struct Operation {
    pub code: u8,
    pub name: &'static str,
    /// How many numbers it takes, at least and at most. After them come the places.
    pub numbers: (usize, usize),
    pub places: Places,
}

/// What an operation takes beside numbers.
#[derive(Clone, Copy)]
pub enum Places {
    None,
    Distance,
    Field,
    FieldAndCount,
}

pub enum Form {
    Constant(i64),
    Input(u8),
    Call(&'static Operation, Vec<Form>),
}

const LAST_COMPARISON: u8 = 5;

impl Places {
    pub fn number(self) -> usize {
        match self {
            Places::None => 0,
            Places::Distance => 1,
            Places::Field => 2,
            Places::FieldAndCount => 3,
        }
    }
}

impl Form {
    /// How deep forms are nested. One without arguments is 1 deep.
    pub fn depth(&self) -> usize {
        match self {
            Form::Constant(_) | Form::Input(_) => 1,
            Form::Call(_, arguments) => 1 + arguments.iter().map(Form::depth).max().unwrap_or(0),
        }
    }

    /// The stored rule: the width, then the form. The width, codes and counts have one group each.
    pub fn stored(&self, width: u8) -> Vec<u8> {
        let mut bytes = vec![width];
        self.store(&mut bytes);
        bytes
    }

    fn store(&self, bytes: &mut Vec<u8>) {
        match self {
            Form::Constant(x) => {
                bytes.push(0);
                store_signed(*x, bytes);
            }
            Form::Input(index) => bytes.extend([1, *index]),
            Form::Call(operation, arguments) => {
                bytes.extend([2, operation.code, arguments.len() as u8]);
                arguments.iter().for_each(|argument| argument.store(bytes));
            }
        }
    }
}

/// Signed LEB128, as few groups as can be.
fn store_signed(x: i64, bytes: &mut Vec<u8>) {
    let mut rest = x;
    while !(-64..64).contains(&rest) {
        bytes.push(rest as u8 | 0x80);
        rest >>= 7;
    }
    bytes.push(rest as u8 & 0x7F);
}

/// The Scheme expression. Inputs are x0 to x15; yes is 1 and no is 0.
impl fmt::Display for Form {
    fn fmt(&self, f: &mut fmt::Formatter) -> fmt::Result {
        match self {
            Form::Constant(x) => write!(f, "{x}"),
            Form::Input(index) => write!(f, "x{index}"),
            Form::Call(operation, arguments) => {
                let question = operation.code <= LAST_COMPARISON;
                write!(f, "{}({}", if question { "(if " } else { "" }, operation.name)?;
                arguments.iter().try_for_each(|argument| write!(f, " {argument}"))?;
                write!(f, "{}", if question { ") 1 0)" } else { ")" })
            }
        }
    }
}
