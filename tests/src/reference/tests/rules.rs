//! Stored rules, read and evaluated by hand.

use crate::reference::rule::reader::read;
use crate::reference::rule::writer::write;
use crate::reference::rule::{rule_calls, Form, Rule};
use crate::refusal::{COUNT, DOMAIN, NOT_FIXNUM, RULE, SIZE};
use crate::rule_call::{RuleAnswer, RuleCall};

/// The offset of the breach.
fn breach(bytes: &[u8]) -> usize {
    read(bytes).expect_err("a breach").offset
}

/// Refusal, place, offset and value of an evaluation.
fn evaluated(bytes: &[u8], inputs: &[i64]) -> (u64, u64, u64, i64) {
    let RuleAnswer { refusal, place, offset, value } = RuleCall::Evaluate(bytes, inputs).answer(&read(bytes));
    (refusal, place, offset, value)
}

/// The inputs 0, 10, 20 and so on.
fn tens() -> [i64; 16] {
    std::array::from_fn(|i| 10 * i as i64)
}

/// (fx+ input-3 -2) at width 24.
const SUM: [u8; 8] = [24, 2, 13, 2, 1, 3, 0, 0x7E];

#[test]
fn a_rule_is_read() {
    let args = vec![Form::Input(3), Form::Constant(-2)];
    let rule = Rule { stored_width: 24, form: Form::Call { code: 13, args } };
    assert_eq!(read(&SUM), Ok(rule.clone()));
    assert_eq!(write(&rule), SUM);
}

#[test]
fn a_rule_is_evaluated() {
    assert_eq!(evaluated(&SUM, &tens()), (0, 0, 0, 28));
    assert_eq!(evaluated(&[0, 0, 0x7F], &tens()), (0, 0, 0, -1));
    assert_eq!(evaluated(&[64, 1, 15], &tens()), (0, 0, 0, 150));
    assert_eq!(evaluated(&[24, 2, 26, 0], &tens()), (0, 0, 0, -1));
    // (fx- (fxmax 1 input-1 5) (fxnot 0)) is 10 + 1.
    let nested = [30, 2, 15, 2, 2, 11, 3, 0, 1, 1, 1, 0, 5, 2, 25, 1, 0, 0];
    assert_eq!(evaluated(&nested, &tens()), (0, 0, 0, 11));
}

/// Every byte of the sum is cut off, and the offset is the length that is left.
#[test]
fn a_rule_that_ends_early() {
    for length in 0..SUM.len() {
        assert_eq!(breach(&SUM[..length]), length);
    }
    assert_eq!(breach(&[0x98]), 1);
    assert_eq!(breach(&[24, 0, 0x80, 0x80]), 4);
}

#[test]
fn widths() {
    for width in 0..=127 {
        let reading = read(&[width, 0, 0]);
        let runs_at = match width {
            0 => Some(30),
            24..=64 => Some(u64::from(width)),
            _ => None,
        };
        assert_eq!(reading.as_ref().ok().map(Rule::width), runs_at, "{width}");
        assert!(reading.is_ok() || breach(&[width, 9, 9, 9]) == 0);
    }
    assert_eq!(breach(&[0x98, 0, 0, 0]), 0);
    assert_eq!(breach(&[0x80, 1, 0, 0]), 0);
}

#[test]
fn the_earliest_item_offends() {
    let cases: [(&[u8], usize); 14] = [
        (&[24, 3], 1),
        (&[24, 0x80, 0], 1),
        (&[24, 0, 0xFF, 0x7F], 2),
        (&[24, 1, 16], 2),
        (&[24, 1, 0x8F, 0], 2),
        (&[24, 2, 0, 9], 2),
        (&[24, 2, 18, 2, 0, 0, 0, 0], 2),
        (&[24, 2, 42, 1], 2),
        (&[24, 2, 13, 3, 0, 0], 3),
        (&[24, 2, 13, 0], 3),
        (&[24, 2, 13, 0x82, 0, 0, 0], 3),
        (&[24, 2, 13, 2, 0, 0, 3], 6),
        (&[24, 0, 0, 0], 3),
        (&[24, 2, 26, 0, 0x80], 4),
    ];
    for (bytes, offset) in cases {
        assert_eq!(breach(bytes), offset, "{bytes:?}");
    }
}

#[test]
fn codes_and_counts() {
    let allowed: Vec<(u64, u64)> = rule_calls().collect();
    // Five with 3 counts, two with 4, one with 2, three with 5; the other 25 of 36 codes have one.
    assert_eq!(allowed.len(), 5 * 3 + 2 * 4 + 2 + 3 * 5 + 25);
    for code in 0..=127 {
        for count in 0..=5 {
            let mut bytes = vec![24, 2, code, count];
            bytes.extend([0, 0].repeat(count as usize));
            let has_code = allowed.iter().any(|&(known, _)| known == u64::from(code));
            match read(&bytes) {
                Ok(_) => assert!(allowed.contains(&(u64::from(code), u64::from(count)))),
                Err(breach) => assert_eq!(breach.offset, if has_code { 3 } else { 2 }),
            }
        }
    }
}

/// fxnot of fxnot and so on: `depth` forms deep, with the constant.
fn nested(depth: usize) -> Vec<u8> {
    [vec![24], [2, 25, 1].repeat(depth - 1), vec![0, 5]].concat()
}

#[test]
fn depths() {
    assert_eq!(evaluated(&nested(31), &tens()), (0, 0, 0, 5));
    assert_eq!(evaluated(&nested(32), &tens()), (0, 0, 0, -6));
    assert_eq!(breach(&nested(33)), 1 + 3 * 32);
    assert_eq!(breach(&nested(1000)), 1 + 3 * 32);
    assert_eq!(breach(&nested(33)[..97]), 97);
    assert_eq!(breach(&[&nested(33)[..97], &[0x80]].concat()), 97);
    let empty = [&nested(32)[..1 + 3 * 31], &[2, 26, 0]].concat();
    assert_eq!(evaluated(&empty, &tens()), (0, 0, 0, 0));
}

#[test]
fn lengths() {
    assert_eq!(breach(&vec![24; 4096]), 1);
    assert_eq!(breach(&vec![24; 4097]), 4096);
    assert_eq!(breach(&vec![0; 4096]), 3);
    assert_eq!(breach(&vec![0; 5000]), 4096);
    assert_eq!(breach(&vec![0xFF; 4096]), 0);
}

#[test]
fn refusals() {
    let tens = tens();
    let beyond = [24, 0, 0x80, 0x80, 0x80, 4];
    assert_eq!(evaluated(&beyond, &tens), (NOT_FIXNUM, 0, 0, 0));
    assert_eq!(evaluated(&[25, 0, 0x80, 0x80, 0x80, 4], &tens), (0, 0, 0, 8_388_608));
    assert_eq!(evaluated(&[24, 1, 0], &[8_388_608; 16]), (NOT_FIXNUM, 0, 0, 0));
    assert_eq!(evaluated(&[24, 2, 16, 2, 1, 1, 0, 0], &tens), (DOMAIN, 2, 0, 0));
    assert_eq!(evaluated(&[24, 2, 35, 3, 1, 1, 0, 5, 0, 4], &tens), (DOMAIN, 3, 0, 0));
    assert_eq!(evaluated(&[24, 2, 40, 4, 1, 1, 0, 5, 0, 8, 0, 4], &tens), (DOMAIN, 4, 0, 0));
    assert_eq!(evaluated(&[24, 2, 38, 2, 0, 1, 0, 23], &tens), (SIZE, 0, 0, 0));
    // fx- of the least fixnum, 2^23 below 0.
    assert_eq!(evaluated(&[24, 2, 15, 1, 0, 0x80, 0x80, 0x80, 0x7C], &tens), (DOMAIN, 0, 0, 0));
}

/// A quotient by 0 and a constant beyond the width: the one that stands first is met first, whatever the call is.
#[test]
fn the_first_refusal_met() {
    let quotient = [2, 16, 2, 0, 1, 0, 0];
    let beyond = [0, 0x80, 0x80, 0x80, 4];
    let both = |first: &[u8], second: &[u8]| [&[24, 2, 26, 2], first, second].concat();
    assert_eq!(evaluated(&both(&quotient, &beyond), &tens()), (DOMAIN, 2, 0, 0));
    assert_eq!(evaluated(&both(&beyond, &quotient), &tens()), (NOT_FIXNUM, 0, 0, 0));
    // A breach after them comes before them, and an empty list of inputs before all.
    let breached = both(&quotient, &[9]);
    assert_eq!(evaluated(&breached, &tens()), (RULE, 0, 11, 0));
    for wrong in [0, 1, 15, 17] {
        assert_eq!(evaluated(&breached, &vec![0; wrong]), (COUNT, 0, 0, 0));
        assert_eq!(evaluated(&SUM, &vec![0; wrong]), (COUNT, 0, 0, 0));
    }
}

#[test]
fn inputs_that_are_not_named() {
    let mut inputs = [i64::MIN; 16];
    inputs[3] = 30;
    assert_eq!(evaluated(&SUM, &inputs), (0, 0, 0, 28));
}
