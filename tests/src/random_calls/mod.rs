//! Random calls, legal and not, most of them near a limit.

mod limbs;

use crate::checker::Checker;
use quebralua_reference::random_arguments::fixnum;

/// Compares that many random calls.
pub fn run(checker: &mut Checker, calls: u64) {
    for _ in 0..calls {
        match checker.random.below(20) {
            0..=8 => {
                let call = fixnum::call(&mut checker.random);
                checker.fixnum(call);
            }
            9..=18 => limbs::call(checker),
            _ => limbs::conversion(checker),
        }
    }
}
