//! The least time of each side of a case. The sides take turns in short rounds, so that a disturbance meets all of them.

use std::hint::black_box;
use std::rc::Rc;
use std::time::{Duration, Instant};

/// A round takes at least this long, so that reading the clock does not count.
const ROUND: Duration = Duration::from_micros(20);
const ROUNDS: usize = 150;

/// One implementation of a call, with its inputs.
pub struct Side {
    /// Makes the call once on each of the inputs.
    pass: Box<dyn FnMut()>,
    inputs: usize,
    passes: u32,
    /// Nanoseconds for one call, in the quickest round so far.
    pub least: f64,
}

impl Side {
    pub fn new<I: 'static, T>(inputs: &Rc<Vec<I>>, mut call: impl FnMut(&I) -> T + 'static) -> Side {
        let inputs = inputs.clone();
        let number = inputs.len();
        let pass = move || {
            for input in inputs.iter() {
                black_box(call(black_box(input)));
            }
        };
        Side { pass: Box::new(pass), inputs: number, passes: 0, least: f64::INFINITY }
    }

    /// Finds how many passes make a round.
    pub fn calibrate(&mut self) {
        self.passes = 1;
        while self.run() < ROUND {
            self.passes *= 2;
        }
    }

    fn run(&mut self) -> Duration {
        let start = Instant::now();
        for _ in 0..self.passes {
            (self.pass)();
        }
        start.elapsed()
    }

    pub fn round(&mut self) {
        let calls = f64::from(self.passes) * self.inputs as f64;
        self.least = self.least.min(self.run().as_nanos() as f64 / calls);
    }
}

/// A call, and what stands beside it.
pub struct Case {
    pub name: String,
    ours: Side,
    gmp: Option<Side>,
    plain: Side,
    rounds: usize,
}

impl Case {
    pub fn new(name: &str, ours: Side, gmp: Option<Side>, plain: Side) -> Case {
        Case { name: name.to_string(), ours, gmp, plain, rounds: ROUNDS }
    }

    /// The same with another number of rounds in a sweep.
    pub fn with_rounds(self, rounds: usize) -> Case {
        Case { rounds, ..self }
    }

    /// Measures all sides in turn, and keeps the least times.
    pub fn measure(&mut self) {
        let mut sides = vec![&mut self.ours, &mut self.plain];
        sides.extend(&mut self.gmp);
        for side in &mut sides {
            side.calibrate();
        }
        for _ in 0..self.rounds {
            for side in &mut sides {
                side.round();
            }
        }
    }

    pub fn over_gmp(&self) -> Option<f64> {
        self.gmp.as_ref().map(|gmp| self.ours.least / gmp.least)
    }

    pub fn over_plain(&self) -> f64 {
        self.ours.least / self.plain.least
    }

    /// Our time for one call.
    pub fn nanoseconds(&self) -> f64 {
        self.ours.least
    }

    /// Our time here over our time in another case.
    pub fn growth_from(&self, smaller: &Case) -> f64 {
        self.ours.least / smaller.ours.least
    }
}

/// Ends the program where two results differ: the time of a wrong result means nothing.
pub fn require(same: bool, name: &str, other: &str) {
    if !same {
        eprintln!("{name}: the library and {other} give different results, so nothing is measured.");
        std::process::exit(1);
    }
}
