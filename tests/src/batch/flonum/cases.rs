//! What the numbers of the compared `fl` lines have to show. A number counts where the answer shows it, with its sign
//! or without, or names it as one that cannot be read.

use super::exact::{is_tie, Decimal};
use super::hexadecimal::nearest;
use super::operation::named;
use super::spelling::{spelling, Body, Parts, Spelling, Trouble, MOST_DIGITS, MOST_EXPONENT};
use super::text;
use super::value::value;
use crate::batch::answer::words;
use crate::batch::expected::Expected;
use crate::flonum_call::FlonumOperation;
use crate::reference::flonum::{magnitude, HIDDEN, INFINITY};

/// A number of a line: its spelling, the magnitude that it is read as, and whether it lies halfway between two.
struct Number<'a> {
    spelling: Spelling<'a>,
    magnitude: u64,
    tie: bool,
}

/// A case by name, and whether a number is one.
type Case = (&'static str, fn(&Number) -> bool);

const READ: [Case; 24] = [
    ("decimal", |x| decimal(x).is_some()),
    ("decimal, subnormal", |x| decimal(x).is_some() && is_subnormal(x)),
    ("decimal, too large: infinity", |x| decimal(x).is_some() && x.magnitude == INFINITY),
    ("decimal, too small: zero", |x| decimal(x).is_some_and(is_not_zero) && x.magnitude == 0),
    ("decimal, tie", |x| decimal(x).is_some() && x.tie),
    ("decimal, tie between subnormals", |x| decimal(x).is_some() && x.tie && is_subnormal(x)),
    ("decimal, tie with 2^1024", |x| decimal(x).is_some() && x.tie && x.magnitude == INFINITY),
    ("decimal, tie with zero", |x| decimal(x).is_some() && x.tie && x.magnitude == 0),
    ("decimal, over 17 digits", |x| decimal(x).is_some_and(|parts| parts.digits() > 17)),
    ("decimal, over 768 digits", |x| decimal(x).is_some_and(|parts| parts.digits() > 768)),
    ("decimal, the most digits", |x| decimal(x).is_some_and(|parts| parts.digits() == MOST_DIGITS)),
    ("decimal, the greatest exponent", |x| decimal(x).is_some_and(|parts| parts.exponent == MOST_EXPONENT)),
    ("decimal, the least exponent", |x| decimal(x).is_some_and(|parts| parts.exponent == -MOST_EXPONENT)),
    ("hexadecimal", |x| hexadecimal(x).is_some()),
    ("hexadecimal, subnormal", |x| hexadecimal(x).is_some() && is_subnormal(x)),
    ("hexadecimal, too large: infinity", |x| hexadecimal(x).is_some() && x.magnitude == INFINITY),
    ("hexadecimal, too small: zero", |x| hexadecimal(x).is_some_and(is_not_zero) && x.magnitude == 0),
    ("hexadecimal, tie", |x| hexadecimal(x).is_some() && x.tie),
    ("hexadecimal, tie between subnormals", |x| hexadecimal(x).is_some() && x.tie && is_subnormal(x)),
    ("hexadecimal, over 14 digits", |x| hexadecimal(x).is_some_and(|parts| parts.digits() > 14)),
    ("hexadecimal, the most digits", |x| hexadecimal(x).is_some_and(|parts| parts.digits() == MOST_DIGITS)),
    ("minus zero, written", |x| x.spelling.negative && x.magnitude == 0 && decimal(x).is_some_and(|p| !is_not_zero(p))),
    ("infinity, written", |x| x.spelling.body == Body::Infinity),
    ("nan, written", |x| x.spelling.body == Body::Nan),
];
const UNREAD: [(&str, Trouble); 3] = [
    ("malformed", Trouble::Malformed),
    ("too many digits", Trouble::TooManyDigits),
    ("an exponent beyond the limits", Trouble::TooFar),
];
const SUPERFLUOUS: &str = "a word too many";

fn decimal<'a>(number: &Number<'a>) -> Option<Parts<'a>> {
    match number.spelling.body {
        Body::Decimal(parts) => Some(parts),
        _ => None,
    }
}

fn hexadecimal<'a>(number: &Number<'a>) -> Option<Parts<'a>> {
    match number.spelling.body {
        Body::Hexadecimal(parts) => Some(parts),
        _ => None,
    }
}

fn is_not_zero(parts: Parts) -> bool {
    [parts.whole, parts.fraction].iter().any(|digits| digits.bytes().any(|byte| byte != b'0'))
}

fn is_subnormal(number: &Number) -> bool {
    (1..HIDDEN).contains(&number.magnitude)
}

impl<'a> Number<'a> {
    fn of(spelling: Spelling<'a>) -> Number<'a> {
        let magnitude = magnitude(value(&spelling));
        let tie = match &spelling.body {
            Body::Decimal(parts) => is_tie(&Decimal::of(parts), magnitude),
            Body::Hexadecimal(parts) => nearest(parts).1,
            _ => false,
        };
        Number { spelling, magnitude, tie }
    }
}

/// The names of all cases.
pub fn all() -> impl Iterator<Item = &'static str> {
    READ.iter().map(|row| row.0).chain(UNREAD.iter().map(|row| row.0)).chain([SUPERFLUOUS])
}

/// The cases of a line of `fl` with that answer.
pub fn cases(line: &str, answer: &Expected) -> Vec<&'static str> {
    let words = words(line);
    let Some(operation) = words.get(1).and_then(|word| named(word)) else { return vec![] };
    match answer {
        Expected::Unreadable(place, word) => unread(operation, *place, word).into_iter().collect(),
        Expected::Done(_, text) if operation != FlonumOperation::FixnumToFlonum => {
            words[2..].iter().flat_map(|word| read(word, text)).collect()
        }
        _ => vec![],
    }
}

/// The cases of a number, if the text shows it.
fn read(word: &str, text: &str) -> Vec<&'static str> {
    let spelling = spelling(word).expect("a number of a done call");
    let bits = value(&spelling);
    if ![bits, magnitude(bits)].iter().any(|&x| text.contains(&text::flonum(x))) {
        return vec![];
    }
    let number = Number::of(spelling);
    READ.iter().filter(|(_, is)| is(&number)).map(|row| row.0).collect()
}

/// The case of the word in that place, counted from 1.
fn unread(operation: FlonumOperation, place: usize, word: &str) -> Option<&'static str> {
    match operation {
        FlonumOperation::FixnumToFlonum => (place == 5).then_some(SUPERFLUOUS),
        FlonumOperation::Extremes => trouble(word),
        _ if place == 4 => Some(SUPERFLUOUS),
        _ => trouble(word),
    }
}

fn trouble(word: &str) -> Option<&'static str> {
    let trouble = spelling(word).err()?;
    UNREAD.iter().find(|row| row.1 == trouble).map(|row| row.0)
}
