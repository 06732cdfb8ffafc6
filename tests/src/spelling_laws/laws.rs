//! The laws of spellings, each on 1 to 1,024 limbs, by the library's answers alone.

use super::asked::{calls_of, legal_call, refusal, trimmed};
use super::spelling;
use crate::checker::Checker;
use crate::report::{difference, shown};
use quebralua_reference::call::LimbCall;
use quebralua_reference::operation::Operation::Trim;
use quebralua_reference::reference::limbs::MOST_LIMBS;
use quebralua_reference::reference::width::WHOLE_WORD;
use quebralua_reference::refusal::{DONE, OPERAND, ROOM, SIZE};
use quebralua_reference::spellings::{continuation, padded};

/// Compares a law, and answers how many times.
type Law = fn(&mut Checker, &[u32]) -> u64;

pub const LAWS: [(&str, Law); 8] = [
    ("what trim drops", dropped_limbs),
    ("trimmed twice", trimmed_twice),
    ("two spellings", two_spellings),
    ("refused exactly if trim drops a limb", refused_if_dropped),
    ("in each place", in_each_place),
    ("trimmed operands and results", trimmed_operands),
    ("room for trim", room),
    ("conversion", conversion),
];

/// Trim keeps the first limbs, and drops such that continue the last of these.
fn dropped_limbs(checker: &mut Checker, limbs: &[u32]) -> u64 {
    let kept = trimmed(checker, limbs);
    let is_same = limbs.starts_with(&kept) && limbs[kept.len()..].iter().all(|&limb| limb == continuation(&kept));
    if kept.is_empty() || !is_same {
        difference(&text(limbs), "limbs of the same integer", &shown(&kept));
    }
    1
}

/// Trim leaves what it has written.
fn trimmed_twice(checker: &mut Checker, limbs: &[u32]) -> u64 {
    let once = trimmed(checker, limbs);
    let twice = trimmed(checker, &once);
    require_same(|| text(&once), &once, &twice);
    1
}

/// Two spellings of one integer are trimmed to the same limbs: these limbs, and some with a few more or as many as can be.
fn two_spellings(checker: &mut Checker, limbs: &[u32]) -> u64 {
    let expected = trimmed(checker, limbs);
    let few = limbs.len() + 1 + checker.random.below(4) as usize;
    let any = checker.random.between(expected.len() as i64, MOST_LIMBS as i64) as usize;
    for length in [few.min(MOST_LIMBS), any, MOST_LIMBS] {
        let other = padded(&expected, length);
        let got = trimmed(checker, &other);
        require_same(|| format!("{}\n{}", text(limbs), text(&other)), &expected, &got);
    }
    3
}

/// A call refuses an operand exactly if trim drops some of its limbs, and is done otherwise.
fn refused_if_dropped(checker: &mut Checker, limbs: &[u32]) -> u64 {
    let is_dropped = trimmed(checker, limbs).len() < limbs.len();
    let mut compared = 0;
    for operation in calls_of(1).filter(|&operation| operation != Trim) {
        let call = legal_call(&mut checker.random, operation, &[limbs]);
        require(checker, &call, if is_dropped { OPERAND } else { DONE });
        compared += 1;
    }
    compared
}

/// So does a call of several operands, whichever it is that trim drops limbs of.
fn in_each_place(checker: &mut Checker, limbs: &[u32]) -> u64 {
    let [y, z] = [0; 2].map(|_| spelling(&mut checker.random));
    let y = trimmed(checker, &y);
    let spellings = [limbs, &y, &z];
    let is_dropped = spellings.map(|x| trimmed(checker, x).len() < x.len());
    let mut compared = 0;
    for operation in (2..=3).flat_map(calls_of) {
        for first in 0..3 {
            let places: Vec<usize> = (0..operation.operands()).map(|i| (first + i) % 3).collect();
            let operands: Vec<&[u32]> = places.iter().map(|&i| spellings[i]).collect();
            let is_refused = places.iter().any(|&i| is_dropped[i]);
            let call = legal_call(&mut checker.random, operation, &operands);
            require(checker, &call, if is_refused { OPERAND } else { DONE });
            compared += 1;
        }
    }
    compared
}

/// Every call is done on what trim has written, and trim leaves every result.
fn trimmed_operands(checker: &mut Checker, limbs: &[u32]) -> u64 {
    let other = spelling(&mut checker.random);
    let [x, y] = [limbs, &other].map(|spelling| trimmed(checker, spelling));
    let mut compared = 0;
    for operation in (1..=3).flat_map(calls_of) {
        let call = legal_call(&mut checker.random, operation, &[&x[..], &y, &x][..operation.operands()]);
        compared += 1;
        if !operation.writes() {
            require(checker, &call, DONE);
            continue;
        }
        match checker.ask_write(&call, MOST_LIMBS) {
            Ok(result) => require_same(|| text(&result), &result, &trimmed(checker, &result)),
            Err(refusal) => difference(&call.as_c(None), "done", &format!("refusal {refusal}")),
        }
    }
    compared
}

/// Trim needs room for what it writes, and for no limb more.
fn room(checker: &mut Checker, limbs: &[u32]) -> u64 {
    let expected = trimmed(checker, limbs);
    let call = LimbCall::new(Trim, &[limbs], &[]);
    let exact = checker.ask_write(&call, expected.len());
    let short = checker.ask_write(&call, expected.len() - 1);
    if (&exact, &short) != (&Ok(expected), &Err(ROOM)) {
        difference(
            &call.as_c(None),
            "done with room for the result, refusal 8 with less",
            &format!("{exact:x?}, {short:x?}"),
        );
    }
    1
}

/// At the width at which every number is a fixnum, two limbs can be converted, and come back as the same limbs.
fn conversion(checker: &mut Checker, limbs: &[u32]) -> u64 {
    let kept = trimmed(checker, limbs);
    if kept.len() < limbs.len() {
        require(checker, &LimbCall::limbs_to_fixnum(WHOLE_WORD, limbs), OPERAND);
    }
    let call = LimbCall::limbs_to_fixnum(WHOLE_WORD, &kept);
    if kept.len() > 2 {
        require(checker, &call, SIZE);
        return 1;
    }
    require(checker, &call, DONE);
    let n = checker.ask_value(&call).value;
    let back = checker.ask_write(&LimbCall::fixnum_to_limbs(WHOLE_WORD, n), MOST_LIMBS);
    require_same(|| call.as_c(None), &kept, &back.unwrap_or_default());
    1
}

/// Ends the program if the call was answered otherwise.
fn require(checker: &mut Checker, call: &LimbCall, expected: u64) {
    let got = refusal(checker, call);
    if got != expected {
        let [expected, got] = [expected, got].map(|refusal| format!("refusal {refusal}"));
        difference(&call.as_c(None), &expected, &got);
    }
}

/// Ends the program if the limbs differ.
fn require_same(calls: impl FnOnce() -> String, expected: &[u32], got: &[u32]) {
    if expected != got {
        difference(&calls(), &shown(expected), &shown(got));
    }
}

/// Trim of these limbs, as C.
fn text(limbs: &[u32]) -> String {
    LimbCall::new(Trim, &[limbs], &[]).as_c(None)
}
