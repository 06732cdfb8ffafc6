//! The laws of the smallest and the largest.

use super::asked::{extremes, extremes_call, require};
use super::exact::{at_most, is_nan, same_value, NAN, SIGN};
use super::Sample;
use crate::checker::Checker;
use quebralua_reference::flonum_call::{FlonumAnswer, FlonumCall};

/// Each half is one of the arguments, bit for bit, beyond which none lies, and the first of its value. One NaN gives
/// the one NaN twice.
pub fn first_of_its_value(checker: &mut Checker, sample: &Sample) -> u64 {
    let flonums = sample.counted();
    let answers @ [smallest, largest] = extremes(checker, flonums);
    let holds = if flonums.iter().any(|&x| is_nan(x)) {
        answers == [NAN; 2]
    } else {
        let is_first = |x: u64| flonums.iter().find(|&&y| same_value(x, y)) == Some(&x);
        let is_between = flonums.iter().all(|&x| at_most(smallest, x) && at_most(x, largest));
        is_first(smallest) && is_first(largest) && is_between
    };
    require(holds, "the smallest and the largest argument", &[extremes_call(flonums)], &answers);
    1
}

/// The arguments in any other order give the same values, and others beyond the count the same bits.
pub fn any_order(checker: &mut Checker, sample: &Sample) -> u64 {
    let flonums = sample.counted();
    let expected = extremes(checker, flonums);
    let other = FlonumCall { flonums: beyond(sample), ..extremes_call(flonums) };
    let [smallest, largest] = expected;
    let same = FlonumAnswer::Extremes { refusal: 0, smallest, largest };
    require(checker.ask_flonum(&other) == same, "the same bits", &[extremes_call(flonums), other], &expected);
    let mut permuted = flonums.to_vec();
    for i in (1..permuted.len()).rev() {
        permuted.swap(i, checker.random.below(i as u64 + 1) as usize);
    }
    let got = extremes(checker, &permuted);
    let holds = expected.iter().zip(got).all(|(&x, y)| same_value(x, y));
    let calls = [flonums, &permuted].map(extremes_call);
    require(holds, "the same values", &calls, &[expected, got].concat());
    2
}

/// The counted arguments, and two others in the places beyond: x, which may be a NaN, and y.
fn beyond(sample: &Sample) -> [u64; 4] {
    let mut flonums = [sample.x, sample.y, sample.x, sample.y];
    flonums[..sample.count].copy_from_slice(sample.counted());
    flonums
}

/// Of four: the extremes of those of the first two and of those of the last two. The smallest of the opposites is the
/// opposite of the largest, and the other way round.
pub fn pairs_and_opposites(checker: &mut Checker, &Sample { flonums, .. }: &Sample) -> u64 {
    let expected @ [smallest, largest] = extremes(checker, &flonums);
    let [first, last] = [&flonums[..2], &flonums[2..]].map(|pair| extremes(checker, pair));
    let got = [0, 1].map(|half| extremes(checker, &[first[half], last[half]])[half]);
    require(got == expected, "as of the pairs", &[extremes_call(&flonums)], &[expected, got].concat());
    let opposites = flonums.map(|x| x ^ SIGN);
    let got = extremes(checker, &opposites);
    let holds = if smallest == NAN { got == expected } else { got == [largest ^ SIGN, smallest ^ SIGN] };
    let calls = [flonums, opposites].map(|flonums| extremes_call(&flonums));
    require(holds, "opposite flonums", &calls, &[expected, got].concat());
    2
}
