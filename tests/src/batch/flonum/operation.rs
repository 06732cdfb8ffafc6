//! The operations of `fl` by name, in the order of `ql ops`.

use crate::flonum_call::FlonumOperation::{self, *};

pub const FLONUM_NAMES: [(&str, FlonumOperation); 9] = [
    ("fixnum->flonum", FixnumToFlonum),
    ("flfloor", Floor),
    ("flceiling", Ceiling),
    ("fltruncate", Truncate),
    ("flround", Round),
    ("flabs", Abs),
    ("flnan?", Nan),
    ("flfinite?", Finite),
    ("flextremes", Extremes),
];

pub fn named(word: &str) -> Option<FlonumOperation> {
    FLONUM_NAMES.iter().find(|row| row.0 == word).map(|row| row.1)
}
