//! Which operands the compared limb calls have shown: in each place of each operation, one of each kind that is not
//! legal, with legal ones in the other places. Trim takes the padded ones.

use quebralua_reference::call::LimbCall;
use quebralua_reference::operation::Operation;
use quebralua_reference::reference::limbs::MOST_LIMBS;
use quebralua_reference::spellings::{continuation, is_padded};
use std::fmt;

const KINDS: [&str; 4] = ["without a limb", "over 1,024 limbs", "padded with zeros", "padded with ones"];

/// The kind, by its place in `KINDS`; none of a legal operand.
fn kind(limbs: &[u32]) -> Option<usize> {
    match limbs.len() {
        0 => Some(0),
        1..=MOST_LIMBS if !is_padded(limbs) => None,
        1..=MOST_LIMBS => Some(if continuation(limbs) == 0 { 2 } else { 3 }),
        _ => Some(1),
    }
}

pub struct OperandCases {
    /// In the order of `Operation::ALL`; then by place, then by kind.
    counts: [[[u64; KINDS.len()]; 3]; Operation::ALL.len()],
}

impl OperandCases {
    pub fn new() -> OperandCases {
        OperandCases { counts: [[[0; KINDS.len()]; 3]; Operation::ALL.len()] }
    }

    /// Counts a call in which one operand alone is not legal.
    pub fn count(&mut self, call: &LimbCall) {
        let mut bad = (0..call.operation.operands()).filter_map(|place| Some((place, kind(call.operands[place])?)));
        if let (Some((place, kind)), None) = (bad.next(), bad.next()) {
            self.counts[call.operation as usize][place][kind] += 1;
        }
    }

    /// Every place of an operation and kind that did not come.
    pub fn missing(&self) -> impl Iterator<Item = String> + '_ {
        let places =
            Operation::ALL.into_iter().flat_map(|operation| (0..operation.operands()).map(move |i| (operation, i)));
        places.flat_map(|(operation, place)| {
            let counts = &self.counts[operation as usize][place];
            let without = KINDS.iter().zip(counts).filter(|&(_, &count)| count == 0);
            without.map(move |(kind, _)| format!("{}: operand {} alone never {kind}", operation.name(), place + 1))
        })
    }
}

/// How many calls there were of each kind.
impl fmt::Display for OperandCases {
    fn fmt(&self, f: &mut fmt::Formatter) -> fmt::Result {
        write!(f, "one operand that is not legal")?;
        for (kind, name) in KINDS.iter().enumerate() {
            let calls: u64 = self.counts.iter().flatten().map(|counts| counts[kind]).sum();
            write!(f, ", {name}: {calls}")?;
        }
        Ok(())
    }
}
