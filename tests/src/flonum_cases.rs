//! What the compared flonum calls have to show beside their answers: each call of one flonum, each kind of flonum with
//! either sign; fixnum->flonum, each way to round; and the smallest and the largest, each of the cases below.

use quebralua_reference::flonum_call::{FlonumCall, FlonumOperation};
use quebralua_reference::flonum_kinds::{kind, way, KINDS, WAYS};
use quebralua_reference::reference::flonum::{is_nan, is_negative, magnitude, order, INFINITY, SIGN};
use quebralua_reference::refusal::DONE;
use std::fmt;

/// By the sign bit.
const SIGNS: [&str; 2] = ["positive", "negative"];

/// A case by name, and whether a call with these counted and uncounted arguments is one.
type Case = (&'static str, fn(&[u64], &[u64]) -> bool);

const CASES: [Case; 14] = [
    ("one counted", |counted, _| counted.len() == 1),
    ("two counted", |counted, _| counted.len() == 2),
    ("three counted", |counted, _| counted.len() == 3),
    ("four counted", |counted, _| counted.len() == 4),
    ("0.0, then -0.0 among zeros", |counted, _| are_zeros(counted) && first_and_other(counted, 0)),
    ("-0.0, then 0.0 among zeros", |counted, _| are_zeros(counted) && first_and_other(counted, SIGN)),
    ("the same number, not 0, twice", |counted, _| has_twice(counted)),
    ("an infinity of each sign", |counted, _| [INFINITY, INFINITY | SIGN].iter().all(|x| counted.contains(x))),
    ("a NaN first", |counted, _| is_only_nan(counted, 0)),
    ("a NaN second", |counted, _| is_only_nan(counted, 1)),
    ("a NaN third", |counted, _| is_only_nan(counted, 2)),
    ("a NaN fourth", |counted, _| is_only_nan(counted, 3)),
    ("NaNs alone", |counted, _| counted.iter().all(|&x| is_nan(x))),
    ("a NaN beyond the count alone", |counted, beyond| !any_nan(counted) && any_nan(beyond)),
];

fn are_zeros(counted: &[u64]) -> bool {
    counted.iter().all(|&x| magnitude(x) == 0)
}

fn first_and_other(counted: &[u64], first: u64) -> bool {
    counted[0] == first && counted.contains(&(first ^ SIGN))
}

fn has_twice(counted: &[u64]) -> bool {
    !any_nan(counted) && (1..counted.len()).any(|i| order(counted[i]) != 0 && counted[..i].contains(&counted[i]))
}

fn any_nan(flonums: &[u64]) -> bool {
    flonums.iter().any(|&x| is_nan(x))
}

fn is_only_nan(counted: &[u64], place: usize) -> bool {
    (0..counted.len().max(place + 1)).all(|i| counted.get(i).is_some_and(|&x| is_nan(x)) == (i == place))
}

pub struct FlonumCases {
    /// In the order of `FlonumOperation::ALL`; then by sign and kind. Those that take no single flonum stay empty.
    kinds: [[[u64; KINDS.len()]; 2]; FlonumOperation::ALL.len()],
    /// By sign, in the order of `WAYS`.
    ways: [[u64; WAYS.len()]; 2],
    /// In the order of `CASES`.
    cases: [u64; CASES.len()],
}

impl FlonumCases {
    pub fn new() -> FlonumCases {
        let kinds = [[[0; KINDS.len()]; 2]; FlonumOperation::ALL.len()];
        FlonumCases { kinds, ways: [[0; WAYS.len()]; 2], cases: [0; CASES.len()] }
    }

    /// Counts the cases of one call.
    pub fn count(&mut self, call: &FlonumCall, refusal: u64) {
        let x = call.flonums[0];
        match call.operation {
            _ if refusal != DONE => {}
            FlonumOperation::FixnumToFlonum => self.ways[usize::from(call.fixnum < 0)][way(call.fixnum)] += 1,
            FlonumOperation::Extremes => {
                let (counted, beyond) = call.flonums.split_at(call.count as usize);
                for (count, (_, is)) in self.cases.iter_mut().zip(CASES) {
                    *count += u64::from(is(counted, beyond));
                }
            }
            operation => self.kinds[operation as usize][usize::from(is_negative(x))][kind(x)] += 1,
        }
    }

    /// Every kind, way and case that did not come.
    pub fn missing(&self) -> impl Iterator<Item = String> + '_ {
        let unary = FlonumOperation::UNARY.into_iter().flat_map(|operation| {
            let rows = self.kinds[operation as usize].iter().zip(SIGNS);
            rows.flat_map(move |(counts, sign)| without(operation.name(), sign, &KINDS, counts))
        });
        let name = FlonumOperation::FixnumToFlonum.name();
        let ways = self.ways.iter().zip(SIGNS).flat_map(move |(counts, sign)| without(name, sign, &WAYS, counts));
        let cases = CASES.iter().zip(self.cases).filter(|&(_, count)| count == 0);
        unary.chain(ways).chain(cases.map(|((case, _), _)| format!("ql_flextremes: never {case}")))
    }
}

/// The names whose counts are 0.
fn without<'a>(
    operation: &'static str,
    sign: &'static str,
    names: &'a [&'static str],
    counts: &'a [u64],
) -> impl Iterator<Item = String> + 'a {
    let without = names.iter().zip(counts).filter(|&(_, &count)| count == 0);
    without.map(move |(name, _)| format!("{operation}: never {sign}, {name}"))
}

impl fmt::Display for FlonumCases {
    fn fmt(&self, f: &mut fmt::Formatter) -> fmt::Result {
        write!(f, "flonums")?;
        for (kind, name) in KINDS.iter().enumerate() {
            let calls: u64 = self.kinds.iter().flatten().map(|counts| counts[kind]).sum();
            write!(f, "\n  {name:48}{calls:>10}")?;
        }
        write!(f, "\nfixnum->flonum")?;
        for (way, name) in WAYS.iter().enumerate() {
            write!(f, "\n  {name:48}{:>10}", self.ways[0][way] + self.ways[1][way])?;
        }
        write!(f, "\nthe smallest and the largest")?;
        for ((name, _), count) in CASES.iter().zip(self.cases) {
            write!(f, "\n  {name:48}{count:>10}")?;
        }
        Ok(())
    }
}
