//! The answer to a line of `ql batch`, by docs/API.md and the second implementation.
//!
//! What the manual leaves open is as tests/command and tests/command.md have it: the sentences about a missing word and
//! a line that is too long, and that a negative width or code cannot be read.

use super::expected::Expected::{self, *};
use super::expected::LONGEST_LINE;
use super::flonum::answer::flonum_call;
use super::form::Form;
use super::reason::Reason;
use super::{reader, text};
use crate::call::LimbCall;
use crate::operation::BITWISE_NAMES;
use crate::reference::fixnum::{fixnum, Answer};
use crate::refusal::{COUNT, DONE};

pub fn expected(line: &str) -> Expected {
    if line.len() > LONGEST_LINE {
        return TooLong;
    }
    let words = words(line);
    let answer = match words.first() {
        None => Ok(Empty),
        Some(&"fx") => fixnum_call(&words),
        Some(&"bitwise") => bitwise_call(&words),
        Some(&"fl") => flonum_call(&words),
        Some(_) => Err(bad(&words, 0)),
    };
    answer.unwrap_or_else(|trouble| trouble)
}

/// What stands between blanks.
pub fn words(line: &str) -> Vec<&str> {
    line.split([' ', '\t']).filter(|word| !word.is_empty()).collect()
}

/// All words are read, from the left, before the call is made.
fn fixnum_call(words: &[&str]) -> Result<Expected, Expected> {
    let width = read(words, 1, reader::unsigned)?;
    let form = read(words, 2, |word| Form::fixnum_name(word).or_else(|| reader::unsigned(word).map(Form::Code)))?;
    let numbers: Vec<i64> = (3..words.len()).map(|i| read(words, i, reader::number)).collect::<Result<_, _>>()?;
    let (Form::Name(code) | Form::Code(code)) = form else { unreachable!("a fixnum operation has been read") };
    let mut args = [0; 4];
    args.iter_mut().zip(&numbers).for_each(|(arg, &n)| *arg = n);
    let Answer { refusal, first, second, place } = fixnum(width, code, args, numbers.len() as u64);
    if refusal != DONE {
        return Ok(Refused(refusal, Reason::of_fixnum(code, args, place)));
    }
    let two = matches!(code, 18 | 21..=24);
    let first = text::number(first);
    Ok(Done(form, if two { format!("{first}, {}", text::number(second)) } else { first }))
}

/// A wrong number of arguments is refused whatever they are: docs/API.md does not say how one too many is read.
fn bitwise_call(words: &[&str]) -> Result<Expected, Expected> {
    let form = read(words, 1, Form::bitwise_name)?;
    let Form::Bitwise(place) = form else { unreachable!("only a bitwise operation has been read") };
    let operation = BITWISE_NAMES[place].1;
    let count = words.len() - 2;
    if count != operation.operands() + operation.numbers() {
        return Ok(Refused(COUNT, Reason::Free));
    }
    let (mut operands, mut numbers) = (Vec::new(), Vec::new());
    for i in 0..count {
        if operation.is_number(i) {
            numbers.push(read(words, i + 2, reader::number)?);
        } else {
            operands.push(read(words, i + 2, reader::operand)?);
        }
    }
    let operands: Vec<&[u32]> = operands.iter().map(Vec::as_slice).collect();
    let call = LimbCall::new(operation, &operands, &numbers);
    let result = if operation.writes() {
        call.result().map(|limbs| text::integer(&limbs))
    } else {
        call.value().map(text::number)
    };
    Ok(result.map_or_else(|refusal| Refused(refusal, Reason::Free), |text| Done(form, text)))
}

/// What the word in that place says, places counted from 0.
pub fn read<T>(words: &[&str], place: usize, reader: impl Fn(&str) -> Option<T>) -> Result<T, Expected> {
    let word = words.get(place).ok_or(Missing(place + 1))?;
    reader(word).ok_or_else(|| bad(words, place))
}

pub fn bad(words: &[&str], place: usize) -> Expected {
    Unreadable(place + 1, words[place].to_string())
}

#[cfg(test)]
mod tests {
    use super::*;

    fn done(line: &str) -> String {
        match expected(line) {
            Done(_, text) => text,
            other => panic!("{line}: {other}"),
        }
    }

    #[test]
    fn results() {
        assert_eq!(done("fx 24 fxand 12 10"), "8 0x8");
        assert_eq!(done("\tfx  #x18 0x1a\t12 10 "), "8 0x8");
        assert_eq!(done("fx 24 fxdiv-and-mod -7 2"), "-4 -0x4, 1 0x1");
        assert_eq!(done("fx 62 21 11 7"), "2 0x2, -3 -0x3");
        assert_eq!(done("fx 24 fx+/carry 8388607 1 0"), "-8388608 -0x800000, 1 0x1");
        assert_eq!(done("fx 64 fx+/carry 9223372036854775807 1 0"), "-9223372036854775808 -0x8000000000000000, 1 0x1");
        assert_eq!(done("fx 64 25 -0x8000000000000000"), "9223372036854775807 0x7fffffffffffffff");
        assert_eq!(done("fx 24 fxand"), "-1 -0x1");
        assert_eq!(done("fx 24 fxrotate-bit-field 5 0 3 3"), "5 0x5");
        assert_eq!(done("fx 62 40 -6 0 61 61"), "-6 -0x6");
        assert_eq!(done("fx 24 fxrotate-bit-field -6 23 23 0"), "-6 -0x6");
        assert_eq!(done("bitwise bitwise-not #xffffffffffffffff"), "-0x10000000000000000");
        assert_eq!(done("bitwise bitwise-copy-bit-field -1 28 36 0"), "-68451041281 -0xff0000001");
        assert_eq!(done("bitwise bitwise-arithmetic-shift -5 -9223372036854775808"), "-1 -0x1");
    }

    #[test]
    fn refusals() {
        for (line, number) in [
            ("fx 23 fxnot 0", 1),
            ("fx 65 fxnot 0", 1),
            ("fx 24 42 0", 2),
            ("fx 24 -0 0", 2),
            ("fx 24 fxand 1 2 3 4 5", 3),
            ("fx 24 fxnot 8388608", 4),
            ("fx 63 fxnot 0x4000000000000000", 4),
            ("fx 24 fx- -8388608", 5),
            ("fx 64 fx- -0x8000000000000000", 5),
            ("fx 64 fxbit-set? 1 0x7fffffffffffffff", 5),
            ("fx 24 fxrotate-bit-field 5 0 3 4", 5),
            ("fx 24 fxrotate-bit-field 5 3 3 1", 5),
            ("fx 24 fxrotate-bit-field 5 3 3 -1", 5),
            ("fx 24 fx+ 8388607 1", 6),
            ("fx 64 fxdiv -0x8000000000000000 -1", 6),
            ("bitwise bitwise-not", 3),
            ("bitwise bitwise-not 1 2", 3),
            ("bitwise bitwise-bit-set? -4 -1", 5),
            ("bitwise bitwise-arithmetic-shift 1 32767", 6),
        ] {
            assert!(matches!(expected(line), Refused(n, _) if n == number), "{line}");
        }
        let longest = format!("bitwise bitwise-length 0x8{}", "0".repeat(8191));
        assert_eq!(expected(&longest), Refused(7, Reason::Free));
    }

    #[test]
    fn reasons() {
        for (line, reason) in [
            ("fx 24 fxnot 8388608", "refused 4: argument 1 is 8388608: .."),
            ("fx 24 fxif 0 0x7fffffffffffffff 8388608", "refused 4: argument 2 is 9223372036854775807: .."),
            ("fx 24 fxdiv 1 -8388609", "refused 4: argument 2, the divisor, is -8388609: .."),
            ("fx 24 fxcopy-bit-field 1 9 3 -8388609", "refused 4: argument 4 is -8388609: .."),
            ("fx 24 fxmod0 1 -0", "refused 5: argument 2, the divisor, is 0: .."),
            ("fx 24 fxbit-set? 1 0x18", "refused 5: argument 2, the position, is 24: .."),
            ("fx 24 fxcopy-bit 1 23 2", "refused 5: argument 3, the new bit, is 2: .."),
            ("fx 24 39 1 -1", "refused 5: argument 2, the distance, is -1: .."),
            ("fx 24 fxbit-field 1 -1 -2", "refused 5: argument 2, the start, is -1: .."),
            ("fx 24 fxreverse-bit-field 1 5 3", "refused 5: argument 3, the end, is 3: .."),
            ("fx 24 fxrotate-bit-field 1 3 5 3", "refused 5: argument 4, the count, is 3: .."),
            ("fx 24 fx- -8388608", "refused 5: .., naming no argument first"),
            ("fx 24 fx+ 8388607 1", "refused 6: .., naming no argument first"),
            ("bitwise bitwise-bit-set? -4 -1", "refused 5: .."),
        ] {
            assert_eq!(expected(line).to_string(), reason, "{line}");
        }
    }

    #[test]
    fn trouble() {
        for (line, place) in [
            ("frob", 1),
            ("FX 24 fxnot 1", 1),
            ("fx 2x fxnit y", 2),
            ("fx -1 fxnot 1", 2),
            ("fx 24 -26 1", 3),
            ("fx 23 fxnot x", 4),
            ("fx 24 fxand 1 2 3 4 x", 8),
            ("bitwise fxnot 1", 2),
            ("bitwise bitwise-arithmetic-shift 1 9223372036854775808", 4),
        ] {
            assert!(matches!(expected(line), Unreadable(number, _) if number == place), "{line}");
        }
        assert_eq!([expected("fx"), expected("fx 24"), expected("bitwise")], [Missing(2), Missing(3), Missing(2)]);
        assert_eq!([expected(""), expected(" \t ")], [Empty, Empty]);
        assert_eq!(done(&format!("fx 24 fxnot 1{}", " ".repeat(LONGEST_LINE - 13))), "-2 -0x2");
        assert_eq!(expected(&" ".repeat(LONGEST_LINE + 1)), TooLong);
    }
}
