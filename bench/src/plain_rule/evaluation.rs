//! Evaluates a rule that is checked: its numbers are known to be allowed, and all but constants have one group.

use super::operation::apply;
use crate::binding::{Refusal, INPUTS};
use crate::plain_fixnum::is_fixnum;

pub fn value(rule: &[u8], width: u64, inputs: &[i64; INPUTS]) -> Result<i64, Refusal> {
    Evaluation { rule, at: 1, width, inputs }.form()
}

struct Evaluation<'a> {
    rule: &'a [u8],
    at: usize,
    width: u64,
    inputs: &'a [i64; INPUTS],
}

impl Evaluation<'_> {
    fn form(&mut self) -> Result<i64, Refusal> {
        match self.byte() {
            0 => {
                let x = self.constant();
                self.fixnum(x)
            }
            1 => {
                let index = self.byte();
                self.fixnum(self.inputs[usize::from(index)])
            }
            _ => self.call(),
        }
    }

    fn call(&mut self) -> Result<i64, Refusal> {
        let (code, count) = (self.byte(), usize::from(self.byte()));
        let mut arguments = [0; 4];
        for argument in &mut arguments[..count] {
            *argument = self.form()?;
        }
        apply(self.width, code, count, &arguments)
    }

    fn byte(&mut self) -> u8 {
        let byte = self.rule[self.at];
        self.at += 1;
        byte
    }

    fn constant(&mut self) -> i64 {
        let (mut x, mut bits) = (0, 0);
        loop {
            let group = self.byte();
            x |= i64::from(group & 0x7F) << bits;
            bits += 7;
            if group < 0x80 {
                let unused = 64_u32.saturating_sub(bits);
                return x << unused >> unused;
            }
        }
    }

    fn fixnum(&self, x: i64) -> Result<i64, Refusal> {
        if is_fixnum(self.width, x) {
            Ok(x)
        } else {
            Err(Refusal::NotFixnum)
        }
    }
}
