//! The laws of folds, each on settings that open and a string of bytes, by the library's answers alone.

use super::asked::{chunk, identifier, join, open, read};
use crate::checker::Checker;
use crate::fold_cases::LONG;
use crate::report::difference;
use quebralua_reference::call::FixnumCall;
use quebralua_reference::fixnum_arguments::random_fixnum;
use quebralua_reference::fold_call::FoldCall;
use quebralua_reference::random::Random;
use quebralua_reference::random_arguments::fold::{cutting, join_length, record, settings_or_width};
use quebralua_reference::reference::fold::{Fold, ZERO};
use quebralua_reference::reference::width::WIDTHS;
use quebralua_reference::refusal::DONE;

/// Compares a law, and answers how many times: 0 where it says nothing of these bytes.
type Law = fn(&mut Checker, &Fold, &[u8]) -> u64;

pub const LAWS: [(&str, Law); 8] = [
    ("any cutting", any_cutting),
    ("joined pieces", joined_pieces),
    ("two joins in one", two_joins_in_one),
    ("xor of two strings", xor_of_two),
    ("one differing byte", one_differing_byte),
    ("greater widths", greater_widths),
    ("codes 40 and 28", codes_40_and_28),
    ("opening by code 40", opening_by_code_40),
];

/// However the bytes are cut, empty chunks too, they come to what the uncut string comes to.
fn any_cutting(checker: &mut Checker, settings: &Fold, bytes: &[u8]) -> u64 {
    let uncut = identifier(checker, settings, &[bytes]);
    let pieces = cutting(&mut checker.random, bytes);
    let got = identifier(checker, settings, &pieces);
    let lengths = || pieces.iter().map(|piece| piece.len()).collect::<Vec<usize>>();
    require(settings, bytes, || format!("in chunks of {:?}", lengths()), uncut, got);
    1
}

/// Pieces that are folded from 0 and joined, the parts of pieces likewise, come to what the uncut string comes to.
fn joined_pieces(checker: &mut Checker, settings: &Fold, bytes: &[u8]) -> u64 {
    let uncut = identifier(checker, settings, &[bytes]);
    let mut splits = Vec::new();
    let got = split_and_joined(checker, settings, bytes, &mut splits);
    require(settings, bytes, || format!("joined at {splits:?}"), uncut, got);
    1
}

/// Folds the bytes as one chunk, or splits them, does the same with each part, and joins the second to the first. Each
/// split is noted by its two lengths.
fn split_and_joined(checker: &mut Checker, settings: &Fold, bytes: &[u8], splits: &mut Vec<(usize, usize)>) -> i64 {
    if splits.len() >= 4 || (!splits.is_empty() && checker.random.one_in(3)) {
        return identifier(checker, settings, &[bytes]);
    }
    let (first, second) = bytes.split_at(checker.random.below(bytes.len() as u64 + 1) as usize);
    splits.push((first.len(), second.len()));
    let accumulator = split_and_joined(checker, settings, first, splits);
    let piece = split_and_joined(checker, &Fold { accumulator: 0, ..*settings }, second, splits);
    let mut record = open(checker, &Fold { accumulator, ..*settings });
    join(checker, &mut record, piece, second.len() as u64);
    read(checker, &record)
}

/// Two joins, by numbers of bytes of any size, are one whose piece is made by the second of them.
fn two_joins_in_one(checker: &mut Checker, settings: &Fold, _: &[u8]) -> u64 {
    let lengths @ [first, second] = [0; 2].map(|_| join_length(&mut checker.random));
    let Some(sum) = first.checked_add(second) else {
        return 0;
    };
    let pieces = [0; 2].map(|_| random_fixnum(&mut checker.random, settings.width));
    let mut record = open(checker, settings);
    join(checker, &mut record, pieces[0], first);
    join(checker, &mut record, pieces[1], second);
    let mut later = open(checker, &Fold { accumulator: pieces[0], ..*settings });
    join(checker, &mut later, pieces[1], second);
    let piece = read(checker, &later);
    let mut once = open(checker, settings);
    join(checker, &mut once, piece, sum);
    let manner = || format!("pieces {pieces:?} of lengths {lengths:?} joined, at once or one after the other");
    require(settings, &[], manner, read(checker, &record), read(checker, &once));
    1
}

/// For two strings of one length, from 0, the fold of their xor is the xor of their folds, by code 28.
fn xor_of_two(checker: &mut Checker, settings: &Fold, bytes: &[u8]) -> u64 {
    let settings = Fold { accumulator: 0, ..*settings };
    let other: Vec<u8> = bytes.iter().map(|_| checker.random.next_u32() as u8).collect();
    let xored: Vec<u8> = bytes.iter().zip(&other).map(|(a, b)| a ^ b).collect();
    let folds = [bytes, &other].map(|string| identifier(checker, &settings, &[string]));
    let expected = fixnum(checker, settings.width, 28, &folds);
    let got = identifier(checker, &settings, &[&xored]);
    require(&settings, bytes, || format!("and its xor with {other:?}"), expected, got);
    1
}

/// Strings that differ in one byte have different folds, whatever follows.
fn one_differing_byte(checker: &mut Checker, settings: &Fold, bytes: &[u8]) -> u64 {
    if bytes.is_empty() {
        return 0;
    }
    let place = checker.random.below(bytes.len() as u64) as usize;
    let mut other = bytes.to_vec();
    other[place] ^= differing_bits(&mut checker.random);
    let folds = [bytes, &other].map(|string| identifier(checker, settings, &[string]));
    if folds[0] == folds[1] {
        let text = FoldCall::Chunk(bytes).as_c(settings);
        difference(&text, &format!("another number with {} at {place}", other[place]), &format!("{folds:?}"));
    }
    1
}

/// One bit, or any of the eight.
fn differing_bits(random: &mut Random) -> u8 {
    if random.one_in(2) {
        1 << random.below(8)
    } else {
        1 + random.below(255) as u8
    }
}

/// Every greater width opens too, and has the same identifier. Of a long string only some widths are asked.
fn greater_widths(checker: &mut Checker, settings: &Fold, bytes: &[u8]) -> u64 {
    let expected = identifier(checker, settings, &[bytes]);
    let step = if bytes.len() < LONG { 1 } else { 13 };
    let mut compared = 0;
    for width in WIDTHS.rev().step_by(step).take_while(|&width| width > settings.width) {
        let got = identifier(checker, &Fold { width, ..*settings }, &[bytes]);
        require(settings, bytes, || format!("at width {width}"), expected, got);
        compared += 1;
    }
    compared
}

/// Each byte is what codes 40 and 28 make of it. Long strings are left out: each of their bytes is two calls.
fn codes_40_and_28(checker: &mut Checker, settings: &Fold, bytes: &[u8]) -> u64 {
    if bytes.len() >= LONG {
        return 0;
    }
    let Fold { width, start, end, count, accumulator } = *settings;
    let mut expected = accumulator;
    let mut record = open(checker, settings);
    for &byte in bytes {
        let rotated = fixnum(checker, width, 40, &[expected, start, end, count]);
        expected = fixnum(checker, width, 28, &[rotated, i64::from(byte)]);
        chunk(checker, &mut record, &[byte]);
        let after = Fold { accumulator: expected, ..*settings };
        if record != after {
            difference(&FoldCall::Chunk(bytes).as_c(settings), &format!("{after:?}"), &format!("{record:?}"));
        }
    }
    bytes.len() as u64
}

/// An opening answers the refusal and place of code 40 on the accumulator, and leaves the settings or a zero record. It
/// is made with settings of any kind at the same width or a refused one.
fn opening_by_code_40(checker: &mut Checker, settings: &Fold, _: &[u8]) -> u64 {
    let settings = settings_or_width(&mut checker.random, settings.width);
    let Fold { width, start, end, count, accumulator } = settings;
    let code_40 = checker.ask(&FixnumCall { width, code: 40, count: 4, args: [accumulator, start, end, count] });
    let before = record(&mut checker.random, *WIDTHS.start());
    let mut after = before;
    let opened = checker.ask_fold(&mut after, &FoldCall::Open(settings));
    let expected = (code_40.refusal, code_40.place, if code_40.refusal == DONE { settings } else { ZERO });
    let got = (opened.refusal, opened.place, after);
    if got != expected {
        difference(&FoldCall::Open(settings).as_c(&before), &format!("{expected:?}"), &format!("{got:?}"));
    }
    1
}

/// The first result of a fixnum call that has to be done.
fn fixnum(checker: &mut Checker, width: u64, code: u64, numbers: &[i64]) -> i64 {
    let mut args = [i64::MIN; 4];
    args[..numbers.len()].copy_from_slice(numbers);
    let call = FixnumCall { width, code, count: numbers.len() as u64, args };
    let answer = checker.ask(&call);
    if answer.refusal != DONE {
        difference(&call.as_c(), "done", &format!("{answer:?}"));
    }
    answer.first
}

/// Ends the program if the fold of the bytes, made in that manner, came to something else.
fn require(settings: &Fold, bytes: &[u8], manner: impl FnOnce() -> String, expected: i64, got: i64) {
    if expected != got {
        let calls = format!("{}\n/* {} */", FoldCall::Chunk(bytes).as_c(settings), manner());
        difference(&calls, &expected.to_string(), &got.to_string());
    }
}
