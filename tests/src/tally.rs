//! How many calls of each operation were compared, and how they were answered.

use crate::done_widths::DoneWidths;
use crate::flonum_cases::FlonumCases;
use crate::fold_cases::FoldCases;
use crate::operand_cases::OperandCases;
use crate::rule_cases::RuleCases;
use quebralua_reference::call::{FixnumCall, LimbCall};
use quebralua_reference::fixnum_answers::fixnum_answers;
use quebralua_reference::flonum_call::{FlonumCall, FlonumOperation};
use quebralua_reference::fold_call::{FoldAnswer, FoldCall, FoldOperation};
use quebralua_reference::operation::{Operation, FIXNUM_NAMES};
use quebralua_reference::reference::fold::Fold;
use quebralua_reference::reference::rule::reader::Breach;
use quebralua_reference::reference::rule::Rule;
use quebralua_reference::refusal::DONE;
use quebralua_reference::rule_call::{RuleAnswer, RuleCall, RuleOperation};
use std::fmt;

/// The answers of one operation, by refusal number, 0 for done, and by place. A call without a place has place 0.
type Counts = [[u64; 5]; 11];

const NONE: Counts = [[0; 5]; 11];

pub struct Tally {
    /// By code; row 0 is for every code that is not 1 to 41.
    fixnum: [Counts; 42],
    /// In the order of `Operation::ALL`.
    limbs: [Counts; Operation::ALL.len()],
    operand_cases: OperandCases,
    /// In the order of `FoldOperation::ALL`.
    folds: [Counts; FoldOperation::ALL.len()],
    fold_cases: FoldCases,
    /// In the order of `RuleOperation::ALL`.
    rules: [Counts; RuleOperation::ALL.len()],
    rule_cases: RuleCases,
    /// In the order of `FlonumOperation::ALL`.
    flonums: [Counts; FlonumOperation::ALL.len()],
    flonum_cases: FlonumCases,
    widths: DoneWidths,
    total: u64,
}

impl Tally {
    pub fn new() -> Tally {
        Tally {
            fixnum: [NONE; 42],
            limbs: [NONE; Operation::ALL.len()],
            operand_cases: OperandCases::new(),
            folds: [NONE; FoldOperation::ALL.len()],
            fold_cases: FoldCases::new(),
            rules: [NONE; RuleOperation::ALL.len()],
            rule_cases: RuleCases::new(),
            flonums: [NONE; FlonumOperation::ALL.len()],
            flonum_cases: FlonumCases::new(),
            widths: DoneWidths::new(),
            total: 0,
        }
    }

    pub fn fixnum(&mut self, call: &FixnumCall, refusal: u64, place: u64) {
        let row = if call.code <= 41 { call.code as usize } else { 0 };
        self.fixnum[row][refusal as usize][place as usize] += 1;
        self.total += 1;
        if refusal == DONE {
            self.widths.fixnum(call);
        }
    }

    pub fn limbs(&mut self, call: &LimbCall, refusal: u64) {
        self.limbs[call.operation as usize][refusal as usize][0] += 1;
        self.total += 1;
        self.operand_cases.count(call);
        if refusal == DONE {
            self.widths.limbs(call);
        }
    }

    /// Counts a call on the record of a fold, which is given as it was before.
    pub fn fold(&mut self, record: &Fold, call: &FoldCall, answer: FoldAnswer) {
        self.folds[call.operation() as usize][answer.refusal as usize][answer.place as usize] += 1;
        self.total += 1;
        self.fold_cases.count(record, call, answer);
        if answer.refusal == DONE {
            self.widths.fold(record, call);
        }
    }

    /// Counts a call on a rule, given what the rule is read as.
    pub fn rule(&mut self, call: &RuleCall, reading: &Result<Rule, Breach>, answer: RuleAnswer) {
        self.rules[call.operation() as usize][answer.refusal as usize][answer.place as usize] += 1;
        self.total += 1;
        self.rule_cases.count(call, reading, answer);
        if let (DONE, Ok(rule)) = (answer.refusal, reading) {
            self.widths.rule(rule, call);
        }
    }

    pub fn flonum(&mut self, call: &FlonumCall, refusal: u64) {
        self.flonums[call.operation as usize][refusal as usize][0] += 1;
        self.total += 1;
        self.flonum_cases.count(call, refusal);
        if refusal == DONE {
            self.widths.flonum(call);
        }
    }

    /// Every operation and possible answer, every width of an operation, and every case of an operand, a fold, a rule
    /// or a flonum, that no compared call has shown.
    pub fn missing(&self) -> Vec<String> {
        let mut missing = Vec::new();
        for (name, counts, possible) in self.rows() {
            for (refusal, place) in possible {
                if counts[refusal as usize][place as usize] == 0 {
                    missing.push(format!("{name}: no call with refusal {}", shown(refusal, place)));
                }
            }
        }
        missing.extend(self.widths.missing());
        missing.extend(self.operand_cases.missing());
        missing.extend(self.fold_cases.missing());
        missing.extend(self.rule_cases.missing());
        missing.extend(self.flonum_cases.missing());
        missing
    }

    /// The name of each operation, its counts, and the refusal numbers that are possible, 0 for done, with their places.
    fn rows(&self) -> impl Iterator<Item = (&str, &Counts, Vec<(u64, u64)>)> {
        let unknown = std::iter::once(("(no such code)", &self.fixnum[0], vec![(1, 0), (2, 0)]));
        let fixnum = (1..=41).map(|code| (FIXNUM_NAMES[code - 1], &self.fixnum[code], fixnum_answers(code as u64)));
        let limbs = Operation::ALL.iter().map(|&operation| {
            let counts = &self.limbs[operation as usize];
            (operation.name(), counts, limb_answers(operation).iter().map(|&refusal| (refusal, 0)).collect())
        });
        let folds = FoldOperation::ALL.iter().map(|&operation| {
            let counts = &self.folds[operation as usize];
            (operation.name(), counts, operation.answers())
        });
        let rules = RuleOperation::ALL.iter().map(|&operation| {
            let counts = &self.rules[operation as usize];
            (operation.name(), counts, operation.answers())
        });
        let flonums = FlonumOperation::ALL.iter().map(|&operation| {
            let counts = &self.flonums[operation as usize];
            (operation.name(), counts, operation.answers().iter().map(|&refusal| (refusal, 0)).collect())
        });
        unknown.chain(fixnum).chain(limbs).chain(folds).chain(rules).chain(flonums)
    }
}

/// A refusal number and its place, if there is one.
fn shown(refusal: u64, place: u64) -> String {
    match place {
        0 => refusal.to_string(),
        _ => format!("{refusal}/{place}"),
    }
}

fn limb_answers(operation: Operation) -> &'static [u64] {
    use Operation::*;
    match operation {
        Not | And | Ior | Xor | If | Trim => &[0, 7, 8],
        CopyBit | BitField | CopyBitField | ShiftRight | Rotate | Reverse => &[0, 5, 7, 8],
        Shift => &[0, 6, 7, 8],
        ShiftLeft => &[0, 5, 6, 7, 8],
        BitCount | Length | FirstBitSet => &[0, 7],
        BitSet => &[0, 5, 7],
        FixnumToLimbs => &[0, 1, 4, 8],
        LimbsToFixnum => &[0, 1, 6, 7],
    }
}

impl fmt::Display for Tally {
    fn fmt(&self, f: &mut fmt::Formatter) -> fmt::Result {
        writeln!(f, "{:28}{:>10}{:>10}  refused by number, or number/place", "operation", "compared", "done")?;
        for (name, counts, possible) in self.rows() {
            write!(f, "{name:28}{:>10}{:>10} ", counts.iter().flatten().sum::<u64>(), counts[0][0])?;
            for (refusal, place) in possible.into_iter().filter(|&(refusal, _)| refusal != 0) {
                write!(f, " {}: {:<9}", shown(refusal, place), counts[refusal as usize][place as usize])?;
            }
            writeln!(f)?;
        }
        writeln!(f, "{:28}{:>10}  {}", "all", self.total, self.widths)?;
        write!(f, "{}\n{}\n{}\n{}", self.operand_cases, self.fold_cases, self.rule_cases, self.flonum_cases)
    }
}
