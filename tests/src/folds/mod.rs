//! Random folds at every width: calls on one record, each compared with the second implementation, and the laws of folds,
//! by the library's answers alone.

mod asked;
mod compared;
mod laws;

use crate::checker::Checker;
use crate::fold_cases::LONG;
use laws::LAWS;
use quebralua_reference::random::Random;
use quebralua_reference::random_arguments::fold::{accepted, bytes};
use quebralua_reference::reference::width::WIDTHS;
use std::fmt;

/// One in so many strings is long.
const LONG_EVERY: u64 = 500;

/// How often each law was compared.
pub struct Laws {
    folds: u64,
    /// In the order of `LAWS`.
    counts: [u64; LAWS.len()],
    /// How many strings were long.
    long: u64,
}

/// Makes that many rounds at every width.
pub fn run(checker: &mut Checker, rounds: u64) -> Laws {
    let mut laws = Laws { folds: 0, counts: [0; LAWS.len()], long: 0 };
    for _ in 0..rounds {
        for width in WIDTHS {
            compared::any_calls(checker, width);
            compared::cutting_of_one_string(checker, width);
            laws.round(checker, width);
        }
    }
    laws
}

impl Laws {
    /// Compares every law on one fold.
    fn round(&mut self, checker: &mut Checker, width: u64) {
        let settings = accepted(&mut checker.random, width);
        // The first string is a long one, so that even the shortest run has it.
        let is_long = self.folds == 0 || checker.random.one_in(LONG_EVERY);
        let bytes = if is_long { long(&mut checker.random) } else { bytes(&mut checker.random) };
        self.folds += 1;
        self.long += u64::from(is_long);
        for (count, (_, law)) in self.counts.iter_mut().zip(LAWS) {
            *count += law(checker, &settings, &bytes);
        }
    }

    /// Every law that was never compared.
    pub fn missing(&self) -> Vec<String> {
        let laws = LAWS.iter().zip(self.counts).filter(|&(_, count)| count == 0);
        let laws = laws.map(|((name, _), _)| format!("folds: {name} never compared"));
        let long = (self.long == 0).then(|| "folds: no law of a long string".to_string());
        laws.chain(long).collect()
    }
}

fn long(random: &mut Random) -> Vec<u8> {
    (0..LONG).map(|_| random.next_u32() as u8).collect()
}

impl fmt::Display for Laws {
    fn fmt(&self, f: &mut fmt::Formatter) -> fmt::Result {
        let laws: Vec<String> =
            LAWS.iter().zip(self.counts).map(|((name, _), count)| format!("{name} {count}")).collect();
        write!(f, "laws of {} folds, {} of them long: {}", self.folds, self.long, laws.join(", "))
    }
}
