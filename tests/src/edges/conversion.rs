//! The conversions at each width: numbers around its limits, shortest and padded, and both ways. Padded limbs are refused
//! after a bad width, and before a number that is no fixnum.

use super::limb_operands::{long, refused, short};
use super::limb_spellings;
use crate::checker::Checker;
use crate::outputs::Shape;
use crate::report::{difference, shown};
use quebralua_reference::call::LimbCall;
use quebralua_reference::fixnum_arguments::{greatest, least, nearest_accepted, numbers, refused_widths};
use quebralua_reference::reference::integer::Integer;
use quebralua_reference::reference::width::WIDTHS;
use quebralua_reference::spellings::padded;

pub fn run(checker: &mut Checker) {
    let mut operands = short(&mut checker.random);
    operands.extend(long(&mut checker.random).into_iter().step_by(2));
    operands.extend(refused());
    for x in limb_spellings::short() {
        operands.extend(limb_spellings::paddings(&x));
        operands.push(x);
    }
    for width in WIDTHS.chain(refused_widths()) {
        for x in &operands {
            checker.edge(&LimbCall::limbs_to_fixnum(width, x));
        }
        for n in numbers(nearest_accepted(width)) {
            checker.edge_all_shapes(&LimbCall::fixnum_to_limbs(width, n));
        }
    }
    for width in WIDTHS {
        limits(checker, width);
        both_ways(checker, width);
    }
}

/// Exponents of the powers of two at which the greatest widths end, or limbs: one, two and three.
const EXPONENTS: [u64; 8] = [31, 32, 61, 62, 63, 64, 95, 96];

/// Limbs around the limits of the width and around those powers of two, and padded to 2, 3, 4, 1,024 and 1,025 limbs.
fn limits(checker: &mut Checker, width: u64) {
    let powers =
        EXPONENTS.into_iter().chain([width - 1, width]).flat_map(|exponent| [1i128 << exponent, -1 << exponent]);
    for n in powers.chain([0]) {
        for near in n - 2..=n + 2 {
            let limbs = Integer::from_i128(near).to_limbs();
            checker.edge(&LimbCall::limbs_to_fixnum(width, &limbs));
            for length in [2, 3, 4, 1024, 1025].into_iter().filter(|&length| length > limbs.len()) {
                checker.edge(&LimbCall::limbs_to_fixnum(width, &padded(&limbs, length)));
            }
        }
    }
}

/// Every fixnum that becomes limbs becomes the same fixnum again, and the limbs the same limbs.
fn both_ways(checker: &mut Checker, width: u64) {
    for n in numbers(width).into_iter().filter(|n| (least(width)..=greatest(width)).contains(n)) {
        let to_limbs = LimbCall::fixnum_to_limbs(width, n);
        let limbs = checker.write(&to_limbs, Shape::Longer).unwrap_or_default();
        let back = checker.value(&LimbCall::limbs_to_fixnum(width, &limbs));
        if back.result() != Ok(n) {
            difference(&to_limbs.as_c(None), &format!("{n} again"), &format!("{back:?}"));
        }
        let again = checker.write(&LimbCall::fixnum_to_limbs(width, back.value), Shape::Exact);
        if again.as_ref() != Some(&limbs) {
            difference(&to_limbs.as_c(None), &shown(&limbs), &format!("{again:?}"));
        }
    }
}
