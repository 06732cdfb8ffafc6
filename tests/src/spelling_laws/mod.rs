//! One integer, one spelling: random limbs, padded or not, what trim makes of them, and which calls take them, by the
//! library's answers alone.

mod asked;
mod laws;

use crate::checker::Checker;
use laws::LAWS;
use quebralua_reference::random::Random;
use quebralua_reference::random_arguments::limbs::any_spelling;
use quebralua_reference::reference::limbs::MOST_LIMBS;
use quebralua_reference::spellings::is_padded;
use std::fmt;

/// How often each law was compared.
pub struct Laws {
    /// How many spellings were the shortest, and how many padded.
    shortest: u64,
    padded: u64,
    /// In the order of `LAWS`.
    counts: [u64; LAWS.len()],
}

/// Compares every law on that many spellings.
pub fn run(checker: &mut Checker, spellings: u64) -> Laws {
    let mut laws = Laws { shortest: 0, padded: 0, counts: [0; LAWS.len()] };
    for _ in 0..spellings {
        let limbs = spelling(&mut checker.random);
        *if is_padded(&limbs) { &mut laws.padded } else { &mut laws.shortest } += 1;
        for (count, (_, law)) in laws.counts.iter_mut().zip(LAWS) {
            *count += law(checker, &limbs);
        }
    }
    laws
}

/// Limbs that trim takes: 1 to 1,024.
fn spelling(random: &mut Random) -> Vec<u32> {
    loop {
        let limbs = any_spelling(random);
        if (1..=MOST_LIMBS).contains(&limbs.len()) {
            return limbs;
        }
    }
}

impl Laws {
    /// Every law that was never compared, and a kind of spelling that never came.
    pub fn missing(&self) -> Vec<String> {
        let laws = LAWS.iter().zip(self.counts).filter(|&(_, count)| count == 0);
        let laws = laws.map(|((name, _), _)| format!("spellings: {name} never compared"));
        let kinds = [("the shortest", self.shortest), ("padded", self.padded)].into_iter().filter(|kind| kind.1 == 0);
        laws.chain(kinds.map(|(kind, _)| format!("spellings: none was {kind}"))).collect()
    }
}

impl fmt::Display for Laws {
    fn fmt(&self, f: &mut fmt::Formatter) -> fmt::Result {
        let laws: Vec<String> =
            LAWS.iter().zip(self.counts).map(|((name, _), count)| format!("{name} {count}")).collect();
        let Laws { shortest, padded, .. } = self;
        write!(f, "laws of {shortest} shortest and {padded} padded spellings: {}", laws.join(", "))
    }
}
