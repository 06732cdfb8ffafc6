//! Trim as a program uses it by the binding. 2^31 needs a second limb, which is 0; -2^31 does not.

use crate::binding::{bitwise_length, bitwise_trim, Refusal};
use crate::report::difference;
use std::fmt::Debug;

const TOP: u32 = 0x8000_0000;

pub fn run() {
    require("5 in three limbs", trimmed(&[5, 0, 0], 1), (Ok(1), [7, 5, 7]));
    require("2^31", trimmed(&[TOP, 0, 0, 0], 1), (Ok(2), [7, TOP, 0]));
    require("-2^31", trimmed(&[TOP, u32::MAX], 0), (Ok(1), [TOP, 7, 7]));
    require("-1", trimmed(&[u32::MAX; 1024], 2), (Ok(1), [7, 7, u32::MAX]));
    require("one limb short", trimmed(&[TOP, 0, 0], 2), (Err(Refusal::Room), [7; 3]));
    require("no limb", trimmed(&[], 0), (Err(Refusal::Operand), [7; 3]));
    require("1,025 limbs", trimmed(&[0; 1025], 0), (Err(Refusal::Operand), [7; 3]));
    require("a padded operand", bitwise_length(&[TOP, 0, 0]).result(), Err(Refusal::Operand));
    require("the same, trimmed", bitwise_length(&[TOP, 0]).result(), Ok(32));
}

/// How many limbs were written to three limbs 7, from that one on, and the three.
fn trimmed(x: &[u32], first: u64) -> (Result<usize, Refusal>, [u32; 3]) {
    let mut out = [7; 3];
    (bitwise_trim(x, &mut out, first).result(), out)
}

fn require<T: Debug + PartialEq>(name: &str, got: T, expected: T) {
    if got != expected {
        difference(&format!("the binding: {name}"), &format!("{expected:?}"), &format!("{got:?}"));
    }
}
