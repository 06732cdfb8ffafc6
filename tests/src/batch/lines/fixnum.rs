//! The words of `fx` lines.

use super::argument;
use crate::batch::numeral::number;
use crate::operation::FIXNUM_NAMES;
use crate::random::Random;
use crate::random_arguments::fixnum::call;

/// The most arguments: one more than any operation takes.
const MOST_ARGUMENTS: u64 = 5;

pub fn words(random: &mut Random) -> Vec<String> {
    let call = call(random);
    let width = if random.one_in(400) { -i128::from(call.width) } else { i128::from(call.width) };
    let mut words = vec!["fx".to_string(), number(random, width), operation(random, call.code)];
    for i in 0..call.count.min(MOST_ARGUMENTS) as usize {
        let n = call.args.get(i).copied().unwrap_or_else(|| random.next_i64());
        words.push(argument(random, n));
    }
    words
}

/// By name or by code, in equal parts.
fn operation(random: &mut Random, code: u64) -> String {
    match code {
        1..=41 if random.one_in(2) => FIXNUM_NAMES[code as usize - 1].to_string(),
        _ => number(random, i128::from(code)),
    }
}

#[cfg(test)]
mod tests {
    use super::*;
    use crate::batch::reader;
    use crate::reference::width::WIDTHS;

    #[test]
    fn every_width_and_the_next_ones_come() {
        let mut random = Random::new(1);
        let widths: Vec<Option<u64>> = (0..20_000).map(|_| reader::unsigned(&words(&mut random)[1])).collect();
        for width in WIDTHS.start() - 1..=WIDTHS.end() + 1 {
            assert!(widths.contains(&Some(width)), "{width}");
        }
    }
}
