//! How the reason of a refusal begins: after `refused N: `, that of a fixnum call names the argument in its place.

use std::fmt;

/// What is compared of a reason.
#[derive(Clone, Debug, PartialEq, Eq)]
pub enum Reason {
    /// Nothing: the call is a bitwise one.
    Free,
    /// That it begins with no argument: the place is 0.
    NoArgument,
    /// That it begins with this argument.
    Argument { place: u64, role: Option<&'static str>, value: i64 },
}

use Reason::*;

impl Reason {
    pub fn of_fixnum(code: u64, args: [i64; 4], place: u64) -> Reason {
        match place {
            0 => NoArgument,
            _ => Argument { place, role: role(code, place), value: args[place as usize - 1] },
        }
    }

    pub fn is_met_by(&self, reason: &[u8]) -> bool {
        match self {
            Free => true,
            NoArgument => !reason.starts_with(b"argument "),
            Argument { place, role, value } => reason.starts_with(beginning(*place, *role, *value).as_bytes()),
        }
    }
}

fn beginning(place: u64, role: Option<&str>, value: i64) -> String {
    match role {
        Some(role) => format!("argument {place}, the {role}, is {value}: "),
        None => format!("argument {place} is {value}: "),
    }
}

/// What the argument in that place is called, if it is more than a number to the operation.
pub fn role(code: u64, place: u64) -> Option<&'static str> {
    match (code, place) {
        (16..=21, 2) => Some("divisor"),
        (33 | 34, 2) => Some("position"),
        (34, 3) => Some("new bit"),
        (35 | 36 | 40 | 41, 2) => Some("start"),
        (35 | 36 | 40 | 41, 3) => Some("end"),
        (37..=39, 2) => Some("distance"),
        (40, 4) => Some("count"),
        _ => None,
    }
}

impl fmt::Display for Reason {
    fn fmt(&self, f: &mut fmt::Formatter) -> fmt::Result {
        match self {
            Free => write!(f, ".."),
            NoArgument => write!(f, ".., naming no argument first"),
            Argument { place, role, value } => write!(f, "{}..", beginning(*place, *role, *value)),
        }
    }
}

#[cfg(test)]
mod tests {
    use super::*;

    #[test]
    fn the_argument_is_compared() {
        let start = Reason::of_fixnum(35, [1, -1, 4, 0], 2);
        assert!(start.is_met_by(b"argument 2, the start, is -1: it must be from 0 to 23"));
        for other in ["argument 2 is -1: x", "argument 2, the start, is 1: x", "argument 3, the start, is -1: x", "x"] {
            assert!(!start.is_met_by(other.as_bytes()), "{other}");
        }
        let source = Reason::of_fixnum(36, [1, 2, 3, 1 << 40], 4);
        assert!(source.is_met_by(b"argument 4 is 1099511627776: x"));
        assert!(!source.is_met_by(b"argument 4, the source, is 1099511627776: x"));
        assert!(!source.is_met_by(b"argument 4 is 10995116277760: x"));
    }
}
