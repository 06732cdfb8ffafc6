//! The two sides of a fixnum call on the same random arguments. Making a case compares their answers, also on arguments
//! that are refused and drawn again.

use std::hint::black_box;
use std::rc::Rc;

use crate::binding::{fixnum, Refusal};
use crate::fixnum_calls::CALLS;
use crate::plain_fixnum::Answer;
use crate::random::Random;
use crate::timing::{require, Case, Side};

/// Where a call is measured.
#[derive(Clone, Copy)]
struct Setting {
    width: u64,
    /// How long numbers are at least: so many bits, beside the sign, are random.
    shortest: i64,
}

/// All calls are measured here.
const USUAL: Setting = Setting { width: 61, shortest: 0 };

/// Here fx+, fx- and the operations with a carry are measured too. Every i64 is a fixnum, and numbers are long: many sums
/// do not fit in an i64, and many carries are not 0.
const WIDEST: Setting = Setting { width: 64, shortest: 63 };
const WIDEST_CODES: [u64; 5] = [13, 15, 22, 23, 24];

const INPUTS: usize = 4096;

/// An operation, what its arguments are, and its function in plain Rust.
pub struct Call {
    pub name: &'static str,
    pub arguments: &'static [Argument],
    pub plain: fn(width: u64, places: &[i64; 4]) -> Answer,
}

#[derive(Clone, Copy)]
pub enum Argument {
    /// A fixnum of a random length, of either sign.
    Number,
    /// From 0 to the width less 1.
    Position,
    /// The same, of either sign.
    Distance,
    /// 0 or 1.
    Bit,
}

/// A row of the table.
pub struct FixnumCase {
    pub code: u64,
    pub case: Case,
}

pub fn cases(random: &mut Random) -> Vec<FixnumCase> {
    let usual = (1..=CALLS.len() as u64).map(|code| (code, USUAL));
    let widest = WIDEST_CODES.map(|code| (code, WIDEST));
    usual.chain(widest).map(|(code, setting)| FixnumCase { code, case: case(random, code, setting) }).collect()
}

fn case(random: &mut Random, code: u64, setting: Setting) -> Case {
    let (call, width) = (&CALLS[code as usize - 1], setting.width);
    let name = if width == USUAL.width { call.name.to_string() } else { format!("{} at width {width}", call.name) };
    let count = call.arguments.len() as u64;
    let compared = |places: &[i64; 4]| {
        let ours = fixnum(width, code, count, *places).result().map_err(Refusal::from);
        require(ours == (call.plain)(width, places), &name, "plain Rust");
        ours
    };
    let inputs = Rc::new((0..INPUTS).map(|_| accepted(random, setting, call.arguments, compared)).collect());
    // The compiler must not know which function is called, nor the width. Both sides read the answer as a caller does: the refusal, then
    // the results or, of a refused call, why.
    let (width, plain) = (black_box(width), black_box(call.plain));
    let ours = Side::new(&inputs, move |places| {
        let answer = fixnum(width, code, count, *places);
        match answer.refusal {
            0 => answer.first ^ answer.second,
            refusal => refusal as i64 ^ answer.place as i64,
        }
    });
    let plain = Side::new(&inputs, move |places| match plain(width, places) {
        Ok((first, second)) => first ^ second,
        Err(refusal) => refusal as i64,
    });
    Case::new(&name, ours, None, plain)
}

/// Random arguments, drawn again until the call is not refused.
fn accepted(
    random: &mut Random,
    setting: Setting,
    arguments: &[Argument],
    call: impl Fn(&[i64; 4]) -> Answer,
) -> [i64; 4] {
    loop {
        let mut places = [0; 4];
        for (place, &argument) in places.iter_mut().zip(arguments) {
            *place = draw(random, setting, argument);
        }
        if call(&places).is_ok() {
            return places;
        }
    }
}

fn draw(random: &mut Random, setting: Setting, argument: Argument) -> i64 {
    let last = setting.width as i64 - 1;
    match argument {
        Argument::Number => {
            let least = -1 << random.between(setting.shortest, last);
            random.between(least, !least)
        }
        Argument::Position => random.between(0, last),
        Argument::Distance => random.between(-last, last),
        Argument::Bit => random.between(0, 1),
    }
}
