//! Bit-count of operands of one length and one sign.

use std::rc::Rc;

use crate::binding as ours;
use crate::gmp_calls;
use crate::inputs::operands;
use crate::limb_case::answering;
use crate::plain_limbs as plain;
use crate::random::Random;
use crate::timing::Case;

/// The longest comes last.
pub const LENGTHS: [usize; 4] = [1, 4, 32, 1024];

/// A row of the table.
pub struct CountCase {
    pub length: usize,
    pub negative: bool,
    pub case: Case,
}

/// By sign, and by length in each.
pub fn cases(random: &mut Random) -> Vec<CountCase> {
    let signs = [false, true].into_iter();
    signs
        .flat_map(|sign| LENGTHS.map(|length| (length, sign)))
        .map(|(length, sign)| row(random, length, sign))
        .collect()
}

fn row(random: &mut Random, length: usize, negative: bool) -> CountCase {
    let name = format!("{length} limbs{}", if negative { " negative" } else { "" });
    let case = answering(
        &name,
        &Rc::new(operands(random, length, negative)),
        |x| ours::bitwise_bit_count(&x.limbs),
        |x, scratch| gmp_calls::bit_count(&x.gmp, scratch),
        |x| plain::bit_count(&x.limbs),
    );
    CountCase { length, negative, case }
}
