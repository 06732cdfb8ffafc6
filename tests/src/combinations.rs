//! Every combination of telling arguments for a fixnum operation at one width.

use quebralua_reference::call::FixnumCall;
use quebralua_reference::fixnum_arguments::{few_numbers, few_positions, kind, numbers, positions, Kind, NEW_BITS};

/// The calls of one code with one number of arguments, numbered from 0.
pub struct Combinations {
    width: u64,
    code: u64,
    count: u64,
    /// The values of each counted argument.
    lists: Vec<Vec<i64>>,
}

impl Combinations {
    pub fn new(width: u64, code: u64, count: u64) -> Combinations {
        let lists = (0..count as usize).map(|index| list(width, code, count, index)).collect();
        Combinations { width, code, count, lists }
    }

    /// How many there are.
    pub fn amount(&self) -> u64 {
        self.lists.iter().map(|list| list.len() as u64).product()
    }

    pub fn call(&self, number: u64) -> FixnumCall {
        let mut rest = number as usize;
        // Places beyond the count hold what no width below 64 accepts.
        let mut args = [i64::MIN; 4];
        for (arg, list) in args.iter_mut().zip(&self.lists) {
            *arg = list[rest % list.len()];
            rest /= list.len();
        }
        FixnumCall { width: self.width, code: self.code, count: self.count, args }
    }
}

/// The values of one argument; fewer where there are many arguments.
fn list(width: u64, code: u64, count: u64, index: usize) -> Vec<i64> {
    let few = count == 4 || (count == 3 && (code <= 12 || (26..=28).contains(&code)));
    match kind(code, index) {
        Kind::Number if few => few_numbers(width),
        Kind::Number => numbers(width),
        Kind::Position if few => few_positions(width),
        Kind::Position => positions(width),
        Kind::NewBit => NEW_BITS.to_vec(),
    }
}
