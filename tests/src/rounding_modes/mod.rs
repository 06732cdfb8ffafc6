//! Flonum calls in the other rounding modes of the machine. The header asks that they be made while rounding is to
//! nearest, and says of another mode: a fixnum may become the other of the two flonums around it; nothing else depends
//! on the mode. Here such calls are made in each mode. Which of them answer otherwise is counted, and what the header
//! says of them is compared; so are random fixnum and limb calls. Before and after, while rounding is to nearest, every
//! answer is compared with the second implementation.
//!
//! On other machines than x86-64 nothing is done.

#[cfg(target_arch = "x86_64")]
mod calls;
#[cfg(target_arch = "x86_64")]
mod compared;
#[cfg(target_arch = "x86_64")]
mod mode;
#[cfg(target_arch = "x86_64")]
mod promised;

use crate::checker::Checker;
use quebralua_reference::flonum_call::FlonumOperation;
use std::fmt;

/// What was seen in each mode but to nearest.
pub struct Modes(Vec<Seen>);

struct Seen {
    mode: String,
    /// Whether the machine itself rounds by the mode.
    is_obeyed: bool,
    /// How many calls there were of each operation, and how many of them answered otherwise than to nearest. In the
    /// order of `FlonumOperation::ALL`.
    counts: [(u64, u64); FlonumOperation::ALL.len()],
}

#[cfg(target_arch = "x86_64")]
pub fn run(checker: &mut Checker) -> Modes {
    compared::run(checker)
}

#[cfg(not(target_arch = "x86_64"))]
pub fn run(_: &mut Checker) -> Modes {
    Modes(Vec::new())
}

impl Modes {
    /// Every mode that the machine obeys in which no fixnum became another flonum: then the header asks callers for
    /// rounding to nearest without a reason.
    pub fn missing(&self) -> Vec<String> {
        let conversion = FlonumOperation::FixnumToFlonum;
        let without = self.0.iter().filter(|seen| seen.is_obeyed && seen.counts[conversion as usize].1 == 0);
        without.map(|seen| format!("{}: the same answer in rounding mode {}", conversion.name(), seen.mode)).collect()
    }
}

impl fmt::Display for Modes {
    fn fmt(&self, f: &mut fmt::Formatter) -> fmt::Result {
        write!(f, "calls that answer otherwise in another rounding mode")?;
        for Seen { mode, is_obeyed, counts } in &self.0 {
            let other = FlonumOperation::ALL.into_iter().zip(counts).filter(|(_, (_, other))| *other > 0);
            let other: Vec<String> =
                other.map(|(operation, (calls, other))| format!("{} {other} of {calls}", operation.name())).collect();
            let other = if *is_obeyed { other.join(", ") } else { "not obeyed by this machine".to_string() };
            write!(f, "\n  {mode:12} {other}")?;
        }
        Ok(())
    }
}
