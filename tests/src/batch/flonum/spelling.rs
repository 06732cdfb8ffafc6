//! A word taken apart as a flonum: a sign, and then digits with a point and an exponent, `inf` or `nan`.

/// The most digits of a number, leading and trailing zeros among them; those of the exponent are not counted.
pub const MOST_DIGITS: usize = 1500;
/// The greatest exponent; its opposite is the least.
pub const MOST_EXPONENT: i64 = 1500;

#[derive(Clone, Copy, Debug, PartialEq, Eq)]
pub struct Spelling<'a> {
    pub negative: bool,
    pub body: Body<'a>,
}

#[derive(Clone, Copy, Debug, PartialEq, Eq)]
pub enum Body<'a> {
    Decimal(Parts<'a>),
    Hexadecimal(Parts<'a>),
    Infinity,
    Nan,
}

/// Digits before and behind the point, one at least in both together, and the exponent: of 10, or of 2 in hexadecimal.
#[derive(Clone, Copy, Debug, PartialEq, Eq)]
pub struct Parts<'a> {
    pub whole: &'a str,
    pub fraction: &'a str,
    pub exponent: i64,
}

/// Why a word cannot be read.
#[derive(Clone, Copy, Debug, PartialEq, Eq)]
pub enum Trouble {
    Malformed,
    TooManyDigits,
    /// The exponent is beyond a limit.
    TooFar,
}

impl Parts<'_> {
    pub fn digits(&self) -> usize {
        self.whole.len() + self.fraction.len()
    }
}

pub fn spelling(word: &str) -> Result<Spelling<'_>, Trouble> {
    let (negative, rest) = signed(word);
    let body = match rest.as_bytes() {
        b"inf" | b"inf.0" => Body::Infinity,
        b"nan" | b"nan.0" => Body::Nan,
        [b'0', b'x' | b'X', ..] => Body::Hexadecimal(parts(&rest[2..], 16, ['p', 'P'])?),
        _ => Body::Decimal(parts(rest, 10, ['e', 'E'])?),
    };
    Ok(Spelling { negative, body })
}

/// Whether there is a minus in front, and what follows the sign.
fn signed(text: &str) -> (bool, &str) {
    match text.strip_prefix('-') {
        Some(rest) => (true, rest),
        None => (false, text.strip_prefix('+').unwrap_or(text)),
    }
}

/// Digits of the base with at most one point; behind one of the letters, an exponent.
fn parts(text: &str, base: u32, letters: [char; 2]) -> Result<Parts<'_>, Trouble> {
    let (mantissa, exponent) = match text.split_once(letters) {
        Some((mantissa, exponent)) => (mantissa, exponent_of(exponent)),
        None => (text, Ok(0)),
    };
    let (whole, fraction) = mantissa.split_once('.').unwrap_or((mantissa, ""));
    let digits = whole.len() + fraction.len();
    let are_digits = whole.chars().chain(fraction.chars()).all(|c| c.is_digit(base));
    if digits == 0 || !are_digits || exponent == Err(Trouble::Malformed) {
        return Err(Trouble::Malformed);
    }
    if digits > MOST_DIGITS {
        return Err(Trouble::TooManyDigits);
    }
    Ok(Parts { whole, fraction, exponent: exponent? })
}

/// Decimal digits, one at least, behind a sign or none.
fn exponent_of(text: &str) -> Result<i64, Trouble> {
    let (negative, digits) = signed(text);
    if digits.is_empty() || !digits.bytes().all(|byte| byte.is_ascii_digit()) {
        return Err(Trouble::Malformed);
    }
    let magnitude: i64 = match digits.trim_start_matches('0') {
        "" => 0,
        digits => digits.parse().map_err(|_| Trouble::TooFar)?,
    };
    let exponent = if negative { -magnitude } else { magnitude };
    if magnitude > MOST_EXPONENT {
        return Err(Trouble::TooFar);
    }
    Ok(exponent)
}

#[cfg(test)]
mod tests {
    use super::*;

    fn decimal(word: &str) -> (bool, &str, &str, i64) {
        match spelling(word) {
            Ok(Spelling { negative, body: Body::Decimal(Parts { whole, fraction, exponent }) }) => {
                (negative, whole, fraction, exponent)
            }
            other => panic!("{word}: {other:?}"),
        }
    }

    #[test]
    fn parts_of_decimals() {
        assert_eq!(decimal("2.5"), (false, "2", "5", 0));
        assert_eq!(decimal("-1e-5"), (true, "1", "", -5));
        assert_eq!(decimal(".5"), (false, "", "5", 0));
        assert_eq!(decimal("+1."), (false, "1", "", 0));
        assert_eq!(decimal("-.0e+007"), (true, "", "0", 7));
    }

    #[test]
    fn parts_of_others() {
        let parts = Parts { whole: "1", fraction: "8", exponent: 1 };
        assert_eq!(spelling("0x1.8p+1"), Ok(Spelling { negative: false, body: Body::Hexadecimal(parts) }));
        for (word, negative, body) in [
            ("inf", false, Body::Infinity),
            ("+inf.0", false, Body::Infinity),
            ("-inf.0", true, Body::Infinity),
            ("-nan", true, Body::Nan),
            ("+nan.0", false, Body::Nan),
        ] {
            assert_eq!(spelling(word), Ok(Spelling { negative, body }), "{word}");
        }
    }

    #[test]
    fn malformed() {
        let words = ["", "-", ".", "-.", "e5", ".e5", "1e", "1e+", "1e5.", "1.5.2", "1,5", "--1", "+-1", "1f", "1e5e5"];
        let others =
            ["0x", "0x.", "0xp1", "0x1p", "0x1p+", "0x1pf", "0x1g", "0x-1p1", "infinite", "in", "inf.", "inf.1"];
        for word in words.into_iter().chain(others).chain(["nano", "nan.00", "#x1", "0b1", "1 ", "é", "1é", "1eé"]) {
            assert_eq!(spelling(word), Err(Trouble::Malformed), "{word}");
        }
    }

    #[test]
    fn limits() {
        let (longest, zeros) = ("7".repeat(MOST_DIGITS), "0".repeat(MOST_DIGITS));
        assert!(spelling(&longest).is_ok() && spelling(&format!("-.{longest}e1500")).is_ok());
        for word in [format!("{longest}0"), format!("0{longest}"), format!("1.{zeros}"), format!("{zeros}.0e9999")] {
            assert_eq!(spelling(&word), Err(Trouble::TooManyDigits), "{word}");
        }
        assert_eq!([decimal("1e1500").3, decimal("1e-1500").3, decimal("1e-00001500").3], [1500, -1500, -1500]);
        for word in ["1e1501", "-1e-1501", "0x1p1501", "0e9999999999999999999999"] {
            assert_eq!(spelling(word), Err(Trouble::TooFar), "{word}");
        }
    }
}
