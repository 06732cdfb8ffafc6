//! At which widths each operation that takes one was seen done. Every accepted width has to come for each of them.

use quebralua_reference::call::{FixnumCall, LimbCall};
use quebralua_reference::flonum_call::{FlonumCall, FlonumOperation};
use quebralua_reference::fold_call::{FoldCall, FoldOperation};
use quebralua_reference::operation::{Operation, FIXNUM_NAMES};
use quebralua_reference::reference::fold::Fold;
use quebralua_reference::reference::rule::Rule;
use quebralua_reference::reference::width::WIDTHS;
use quebralua_reference::rule_call::{RuleCall, RuleOperation};
use std::fmt;

/// How many calls were done, by width.
type Counts = [u64; *WIDTHS.end() as usize + 1];

const NONE: Counts = [0; *WIDTHS.end() as usize + 1];

pub struct DoneWidths {
    /// By code, from 1.
    fixnum: [Counts; FIXNUM_NAMES.len()],
    /// In the order of `Operation::ALL`; those without a width stay empty.
    limbs: [Counts; Operation::ALL.len()],
    /// In the order of `FoldOperation::ALL`.
    folds: [Counts; FoldOperation::ALL.len()],
    /// In the order of `RuleOperation::ALL`, by the width that the rule runs at.
    rules: [Counts; RuleOperation::ALL.len()],
    fixnum_to_flonum: Counts,
}

impl DoneWidths {
    pub fn new() -> DoneWidths {
        DoneWidths {
            fixnum: [NONE; FIXNUM_NAMES.len()],
            limbs: [NONE; Operation::ALL.len()],
            folds: [NONE; FoldOperation::ALL.len()],
            rules: [NONE; RuleOperation::ALL.len()],
            fixnum_to_flonum: NONE,
        }
    }

    pub fn fixnum(&mut self, call: &FixnumCall) {
        self.fixnum[call.code as usize - 1][call.width as usize] += 1;
    }

    pub fn limbs(&mut self, call: &LimbCall) {
        if call.operation.takes_width() {
            self.limbs[call.operation as usize][call.width as usize] += 1;
        }
    }

    pub fn fold(&mut self, record: &Fold, call: &FoldCall) {
        self.folds[call.operation() as usize][call.width(record) as usize] += 1;
    }

    pub fn rule(&mut self, rule: &Rule, call: &RuleCall) {
        self.rules[call.operation() as usize][rule.width() as usize] += 1;
    }

    pub fn flonum(&mut self, call: &FlonumCall) {
        if call.operation == FlonumOperation::FixnumToFlonum {
            self.fixnum_to_flonum[call.width as usize] += 1;
        }
    }

    /// Every operation and accepted width without a done call.
    pub fn missing(&self) -> impl Iterator<Item = String> + '_ {
        self.rows().flat_map(|(name, counts)| {
            let without = WIDTHS.filter(|&width| counts[width as usize] == 0);
            without.map(move |width| format!("{name}: no done call at width {width}"))
        })
    }

    fn rows(&self) -> impl Iterator<Item = (&str, &Counts)> {
        let fixnum = FIXNUM_NAMES.iter().copied().zip(&self.fixnum);
        let limbs = Operation::ALL.into_iter().zip(&self.limbs).filter(|(operation, _)| operation.takes_width());
        let folds = FoldOperation::ALL.into_iter().zip(&self.folds);
        let limbs = limbs.map(|(operation, counts)| (operation.name(), counts));
        let folds = folds.map(|(operation, counts)| (operation.name(), counts));
        let rules = RuleOperation::ALL.into_iter().zip(&self.rules);
        let rules = rules.map(|(operation, counts)| (operation.name(), counts));
        let conversion = std::iter::once((FlonumOperation::FixnumToFlonum.name(), &self.fixnum_to_flonum));
        fixnum.chain(limbs).chain(folds).chain(rules).chain(conversion)
    }
}

/// The done calls of all operations at the greatest widths.
impl fmt::Display for DoneWidths {
    fn fmt(&self, f: &mut fmt::Formatter) -> fmt::Result {
        write!(f, "done by width")?;
        for width in WIDTHS.rev().take(3) {
            let calls: u64 = self.rows().map(|(_, counts)| counts[width as usize]).sum();
            write!(f, ", {width}: {calls}")?;
        }
        Ok(())
    }
}
