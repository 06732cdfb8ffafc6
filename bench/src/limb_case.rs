//! The sides of a limb call on the same inputs. Making a case compares their results.

use std::rc::Rc;

use crate::binding::{Value, Written};
use crate::gmp_calls::Scratch;
use crate::inputs::Input;
use crate::plain_limbs::shortest;
use crate::timing::{require, Case, Side};

pub type Inputs = Rc<Vec<Input>>;

/// More limbs than any result has, before it is made short.
const OUT: usize = 1100;

/// The case of a call that writes an integer.
pub fn writing(
    name: &str,
    inputs: &Inputs,
    ours: impl Fn(&Input, &mut [u32]) -> Written + 'static,
    gmp: Option<impl Fn(&Input, &mut Scratch) + 'static>,
    plain: impl Fn(&Input, &mut [u32]) -> usize + 'static,
) -> Case {
    let (mut our_out, mut plain_out, mut scratch) = (vec![0; OUT], vec![0; OUT], Scratch::new());
    for input in inputs.iter() {
        let length = ours(input, &mut our_out).result().unwrap_or(0);
        let expected = &our_out[..length];
        let plain_length = plain(input, &mut plain_out);
        require(expected == &plain_out[..plain_length], name, "plain Rust");
        if let Some(gmp) = &gmp {
            gmp(input, &mut scratch);
            let limbs = scratch.result.to_limbs();
            require(expected == &limbs[..shortest(&limbs)], name, "GMP");
        }
    }
    let ours = Side::new(inputs, move |input| ours(input, &mut our_out));
    let gmp = gmp.map(|gmp| Side::new(inputs, move |input| gmp(input, &mut scratch)));
    let plain = Side::new(inputs, move |input| plain(input, &mut plain_out));
    Case::new(name, ours, gmp, plain)
}

/// The case of a call that answers a number.
pub fn answering<I: 'static>(
    name: &str,
    inputs: &Rc<Vec<I>>,
    ours: impl Fn(&I) -> Value + 'static,
    gmp: impl Fn(&I, &mut Scratch) -> i64 + 'static,
    plain: impl Fn(&I) -> i64 + 'static,
) -> Case {
    let mut scratch = Scratch::new();
    for input in inputs.iter() {
        let expected = ours(input).result().ok();
        require(expected == Some(plain(input)), name, "plain Rust");
        require(expected == Some(gmp(input, &mut scratch)), name, "GMP");
    }
    let gmp = Side::new(inputs, move |input| gmp(input, &mut scratch));
    Case::new(name, Side::new(inputs, ours), Some(gmp), Side::new(inputs, plain))
}
