//! The answer to a line of `fl`.

use super::operation::FLONUM_NAMES;
use super::spelling::spelling;
use super::text;
use super::value::value;
use crate::batch::answer::{bad, read};
use crate::batch::expected::Expected::{self, *};
use crate::batch::form::Form;
use crate::batch::reader;
use crate::batch::reason::Reason;
use crate::batch::text::number;
use crate::flonum_call::{FlonumAnswer, FlonumCall, FlonumOperation};
use crate::refusal::{DONE, NOT_FIXNUM};

/// All words are read, from the left, and none may be left over, before the call is made.
pub fn flonum_call(words: &[&str]) -> Result<Expected, Expected> {
    let form = read(words, 1, Form::flonum_name)?;
    let Form::Flonum(place) = form else { unreachable!("only a flonum operation has been read") };
    let call = match FLONUM_NAMES[place].1 {
        FlonumOperation::FixnumToFlonum => {
            let call = FlonumCall::fixnum_to_flonum(read(words, 2, reader::unsigned)?, read(words, 3, reader::number)?);
            none_left(words, 4)?;
            call
        }
        FlonumOperation::Extremes => {
            let read: Vec<u64> = (2..words.len()).map(|i| read(words, i, flonum)).collect::<Result<_, _>>()?;
            let mut flonums = [0; 4];
            flonums.iter_mut().zip(&read).for_each(|(place, &x)| *place = x);
            FlonumCall::extremes(read.len() as u64, flonums)
        }
        operation => {
            let call = FlonumCall::unary(operation, read(words, 2, flonum)?);
            none_left(words, 3)?;
            call
        }
    };
    Ok(made(form, &call))
}

fn flonum(word: &str) -> Option<u64> {
    spelling(word).ok().map(|spelling| value(&spelling))
}

/// No word stands in that place, counted from 0.
fn none_left(words: &[&str], place: usize) -> Result<(), Expected> {
    if words.len() > place {
        return Err(bad(words, place));
    }
    Ok(())
}

/// What a call answers. A fixnum is refused as the first argument: the width is not counted.
fn made(form: Form, call: &FlonumCall) -> Expected {
    let answer = call.answer();
    match (answer.refusal(), answer) {
        (DONE, FlonumAnswer::One { kind: 1, fixnum, .. }) => Done(form, number(fixnum)),
        (DONE, FlonumAnswer::One { flonum, .. }) => Done(form, text::flonum(flonum)),
        (DONE, FlonumAnswer::Extremes { smallest, largest, .. }) => {
            Done(form, format!("{}, {}", text::flonum(smallest), text::flonum(largest)))
        }
        (DONE, FlonumAnswer::Bits(_)) => unreachable!("no line asks for bits alone"),
        (NOT_FIXNUM, _) => Refused(NOT_FIXNUM, Reason::Argument { place: 1, role: None, value: call.fixnum }),
        (refusal, _) => Refused(refusal, Reason::NoArgument),
    }
}

#[cfg(test)]
mod tests {
    use crate::batch::answer::expected;
    use crate::batch::expected::Expected::{self, *};

    #[test]
    fn answers() {
        for (line, answer) in [
            ("fl flfloor -2.5", "-3.0 -0x1.8p+1 0xc008000000000000"),
            ("fl flceiling -0.5", "-0.0 -0x0p+0 0x8000000000000000"),
            ("fl flround -2.5", "-2.0 -0x1p+1 0xc000000000000000"),
            ("fl fltruncate -inf.0", "-inf -inf 0xfff0000000000000"),
            ("fl flabs -nan", "nan nan 0x7ff8000000000000"),
            ("fl flnan? nan", "1 0x1"),
            ("fl flfinite? 1e400", "0 0x0"),
            ("fl fixnum->flonum #x40 -0x8000000000000000", "-9.223372036854776e18 -0x1p+63 0xc3e0000000000000"),
            ("fl flextremes 1 -2.5", "-2.5 -0x1.4p+1 0xc004000000000000, 1.0 0x1p+0 0x3ff0000000000000"),
            ("fl flextremes -0.0 0.0", "-0.0 -0x0p+0 0x8000000000000000, -0.0 -0x0p+0 0x8000000000000000"),
            ("fl fixnum->flonum 23 8388608", "refused 1: .., naming no argument first"),
            ("fl fixnum->flonum 24 8388608", "refused 4: argument 1 is 8388608: .."),
            ("fl flextremes", "refused 3: .., naming no argument first"),
            ("fl flextremes 1 2 3 4 5", "refused 3: .., naming no argument first"),
        ] {
            assert_eq!(expected(line).to_string(), answer, "{line}");
        }
    }

    #[test]
    fn trouble() {
        let bad = |place, word: &str| Unreadable(place, word.to_string());
        let answers: [(&str, Expected); 12] = [
            ("fl", Missing(2)),
            ("fl flsqrt 2", bad(2, "flsqrt")),
            ("fl flabs", Missing(3)),
            ("fl flfloor 1,5", bad(3, "1,5")),
            ("fl flfloor 1 2", bad(4, "2")),
            ("fl flfloor x 2", bad(3, "x")),
            ("fl fixnum->flonum", Missing(3)),
            ("fl fixnum->flonum -24 1", bad(3, "-24")),
            ("fl fixnum->flonum 23", Missing(4)),
            ("fl fixnum->flonum 24 2.5", bad(4, "2.5")),
            ("fl fixnum->flonum 23 1 2", bad(5, "2")),
            ("fl flextremes 1 2 3 4 x", bad(7, "x")),
        ];
        for (line, answer) in answers {
            assert_eq!(expected(line), answer, "{line}");
        }
    }
}
