//! Widths agree, by the library's answers alone: each call is made at every width, and the answers of each pair of widths
//! are compared, where the smaller is done.

use crate::checker::Checker;
use crate::combinations::Combinations;
use crate::report::difference;
use quebralua_reference::call::FixnumCall;
use quebralua_reference::fixnum_arguments::{few_numbers, numbers};
use quebralua_reference::operation::FIXNUM_NAMES;
use quebralua_reference::random_arguments::fixnum;
use quebralua_reference::reference::fixnum::{codes_and_counts, Answer};
use quebralua_reference::reference::wider::{agree, Answered};
use quebralua_reference::reference::width::WIDTHS;
use quebralua_reference::refusal::DONE;
use std::fmt;

/// How many edge calls there are of one code and number of arguments, at each width.
const EDGES: u64 = 60;

/// What was compared.
pub struct Agreement {
    /// Calls, each of them at all widths.
    calls: u64,
    /// By code; none is 0.
    pairs: [Pairs; FIXNUM_NAMES.len() + 1],
}

/// The pairs of answers of one code, and those of them whose first results differ.
#[derive(Clone, Copy, Default)]
struct Pairs {
    all: u64,
    differing: u64,
}

/// Compares edge calls and that many random ones.
pub fn run(checker: &mut Checker, calls: u64) -> Agreement {
    let mut agreement = Agreement { calls: 0, pairs: [Pairs::default(); FIXNUM_NAMES.len() + 1] };
    for width in WIDTHS {
        agreement.edges(checker, width);
        agreement.carries(checker, width);
        agreement.signs(checker, width);
    }
    for _ in 0..calls {
        let call = fixnum::call(&mut checker.random);
        agreement.compare(checker, call);
    }
    agreement
}

impl Agreement {
    /// Some of the combinations of telling arguments at that width.
    fn edges(&mut self, checker: &mut Checker, width: u64) {
        for (code, count) in codes_and_counts() {
            let combinations = Combinations::new(width, code, count);
            for _ in 0..EDGES {
                let number = checker.random.below(combinations.amount());
                self.edge(checker, combinations.call(number));
            }
        }
    }

    /// The carry operations at the limits of that width.
    fn carries(&mut self, checker: &mut Checker, width: u64) {
        let numbers = few_numbers(width);
        for code in 22..=24 {
            for &x in &numbers {
                for &y in &numbers {
                    numbers.iter().for_each(|&z| self.edge(checker, call(width, code, [x, y, z])));
                }
            }
        }
    }

    /// Either bit at the place of that width's sign.
    fn signs(&mut self, checker: &mut Checker, width: u64) {
        for x in numbers(width) {
            for bit in [0, 1] {
                self.edge(checker, call(width, 34, [x, width as i64 - 1, bit]));
            }
        }
    }

    fn edge(&mut self, checker: &mut Checker, call: FixnumCall) {
        if checker.is_chosen() {
            self.compare(checker, call);
        }
    }

    /// Makes the call at every width, and compares the answers of each pair of widths.
    fn compare(&mut self, checker: &mut Checker, call: FixnumCall) {
        let answers: Vec<Answered> = WIDTHS.map(|width| answered(checker, FixnumCall { width, ..call })).collect();
        self.calls += 1;
        for (i, smaller) in answers.iter().enumerate().filter(|(_, (_, answer))| answer.refusal == DONE) {
            let pairs = &mut self.pairs[call.code as usize];
            for greater in &answers[i + 1..] {
                require(smaller, greater);
                pairs.all += 1;
                pairs.differing += u64::from(smaller.1.first != greater.1.first);
            }
        }
    }

    /// Every code without a pair, and those whose results depend on the width, if none did.
    pub fn missing(&self) -> Vec<String> {
        let mut missing = Vec::new();
        for (code, name) in (1..).zip(FIXNUM_NAMES) {
            let Pairs { all, differing } = self.pairs[code];
            if all == 0 {
                missing.push(format!("{name}: no call that is done at two widths"));
            }
            if differing == 0 && matches!(code, 22..=24 | 34) {
                missing.push(format!("{name}: no call whose result depends on the width"));
            }
        }
        missing
    }
}

fn call(width: u64, code: u64, [x, y, z]: [i64; 3]) -> FixnumCall {
    FixnumCall { width, code, count: 3, args: [x, y, z, i64::MIN] }
}

fn answered(checker: &mut Checker, call: FixnumCall) -> Answered {
    let got = checker.ask(&call);
    (call, Answer { refusal: got.refusal, first: got.first, second: got.second, place: got.place })
}

/// Ends the program if the two do not agree.
fn require(smaller: &Answered, greater: &Answered) {
    if !agree(smaller, greater) {
        let calls = format!("{}\n{}", smaller.0.as_c(), greater.0.as_c());
        difference(&calls, "answers that agree", &format!("{:?}\n          {:?}", smaller.1, greater.1));
    }
}

impl fmt::Display for Agreement {
    fn fmt(&self, f: &mut fmt::Formatter) -> fmt::Result {
        let sum = |part: fn(&Pairs) -> u64| self.pairs.iter().map(part).sum::<u64>();
        let (all, differing) = (sum(|pairs| pairs.all), sum(|pairs| pairs.differing));
        write!(f, "{} calls at every width: {all} pairs of answers agree, {differing} with other results", self.calls)
    }
}
