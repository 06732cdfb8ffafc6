//! The description of one call, what the second implementation answers to it, and its text as C.

use crate::operation::Operation;
use crate::reference::{conversion, limbs};
use std::fmt::LowerHex;

#[derive(Clone, Copy, Debug)]
pub struct FixnumCall {
    pub width: u64,
    pub code: u64,
    pub count: u64,
    pub args: [i64; 4],
}

/// A limb call or a conversion, without the output buffer. Operands and numbers that the operation does not take are
/// empty and 0; the width is 0 where it takes none.
#[derive(Clone, Copy, Debug)]
pub struct LimbCall<'a> {
    pub operation: Operation,
    pub width: u64,
    pub operands: [&'a [u32]; 3],
    pub numbers: [i64; 3],
}

/// An output buffer as it is before the call, and the first limb.
#[derive(Clone, Debug)]
pub struct Output {
    pub limbs: Vec<u32>,
    pub first: u64,
}

impl<'a> LimbCall<'a> {
    pub fn new(operation: Operation, operands: &[&'a [u32]], numbers: &[i64]) -> LimbCall<'a> {
        let mut call = LimbCall { operation, width: 0, operands: [&[]; 3], numbers: [0; 3] };
        assert_eq!((operands.len(), numbers.len()), (operation.operands(), operation.numbers()));
        call.operands[..operands.len()].copy_from_slice(operands);
        call.numbers[..numbers.len()].copy_from_slice(numbers);
        call
    }

    pub fn fixnum_to_limbs(width: u64, n: i64) -> LimbCall<'a> {
        LimbCall { width, ..LimbCall::new(Operation::FixnumToLimbs, &[], &[n]) }
    }

    pub fn limbs_to_fixnum(width: u64, x: &'a [u32]) -> LimbCall<'a> {
        LimbCall { width, ..LimbCall::new(Operation::LimbsToFixnum, &[x], &[]) }
    }

    /// The limbs to write, or the refusal that comes before the capacity is looked at.
    pub fn result(&self) -> Result<Vec<u32>, u64> {
        match self.operation {
            Operation::FixnumToLimbs => conversion::fixnum_to_limbs(self.width, self.numbers[0]),
            operation => limbs::result(operation, self.taken_operands(), self.taken_numbers()),
        }
    }

    /// The value to answer, of an operation that writes nothing.
    pub fn value(&self) -> Result<i64, u64> {
        match self.operation {
            Operation::LimbsToFixnum => conversion::limbs_to_fixnum(self.width, self.operands[0]),
            operation => limbs::value(operation, self.taken_operands(), self.taken_numbers()),
        }
    }

    fn taken_operands(&self) -> &[&'a [u32]] {
        &self.operands[..self.operation.operands()]
    }

    fn taken_numbers(&self) -> &[i64] {
        &self.numbers[..self.operation.numbers()]
    }

    /// The call as C statements, on that output buffer or, if none is given, on one with room for every result.
    pub fn as_c(&self, output: Option<&Output>) -> String {
        let mut arrays = String::new();
        let mut operands = Vec::new();
        for (name, limbs) in ["x", "y", "z"].iter().zip(self.taken_operands()) {
            arrays += &c_array("uint32_t", name, limbs);
            operands.push(c_pointer(name, limbs));
        }
        let mut args: Vec<String> = Vec::new();
        if self.operation.takes_width() {
            args.push(c_unsigned(self.width));
        }
        args.extend(operands.first().cloned());
        args.extend(self.taken_numbers().iter().map(|&n| c_signed(n)));
        args.extend(operands.into_iter().skip(1));
        match output {
            _ if !self.operation.writes() => {}
            Some(output) => {
                arrays += &c_array("uint32_t", "out", &output.limbs);
                args.extend([c_pointer("out", &output.limbs), c_unsigned(output.first)]);
            }
            None => {
                arrays += "uint32_t out[1024];\n";
                args.push("out, 1024, 0".to_string());
            }
        }
        format!("{arrays}{}({});", self.operation.name(), args.join(", "))
    }
}

impl FixnumCall {
    /// The call as a C statement.
    pub fn as_c(&self) -> String {
        let args = self.args.map(c_signed).join(", ");
        let [width, code, count] = [self.width, self.code, self.count].map(c_unsigned);
        format!("ql_fixnum({width}, {code}, {count}, {args});")
    }
}

pub(crate) fn c_unsigned(n: u64) -> String {
    if n > i64::MAX as u64 {
        format!("{n}u")
    } else {
        n.to_string()
    }
}

pub(crate) fn c_signed(n: i64) -> String {
    if n == i64::MIN {
        "INT64_MIN".to_string()
    } else {
        n.to_string()
    }
}

/// The declaration of an array; nothing for an empty one, which is passed as NULL.
pub(crate) fn c_array<T: LowerHex>(kind: &str, name: &str, items: &[T]) -> String {
    if items.is_empty() {
        return String::new();
    }
    let list: Vec<String> = items.iter().map(|item| format!("{item:#x}")).collect();
    format!("{kind} {name}[{}] = {{{}}};\n", items.len(), list.join(", "))
}

pub(crate) fn c_pointer<T>(name: &str, items: &[T]) -> String {
    if items.is_empty() {
        "NULL, 0".to_string()
    } else {
        format!("{name}, {}", items.len())
    }
}
