//! What the header says of a flonum call in another rounding mode.

use quebralua_reference::flonum_call::{FlonumAnswer, FlonumCall, FlonumOperation};
use quebralua_reference::reference::flonum::{magnitude, significand_and_places};

/// Whether the library may answer that, where it is to answer `nearest` while rounding is to nearest. Only a fixnum may
/// become another flonum: the one on its other side.
pub fn is_promised(call: &FlonumCall, nearest: FlonumAnswer, got: FlonumAnswer) -> bool {
    match (call.operation, nearest) {
        _ if nearest == got => true,
        (FlonumOperation::FixnumToFlonum, FlonumAnswer::One { refusal: 0, flonum, .. }) => {
            got == FlonumAnswer::One { refusal: 0, kind: 2, fixnum: 0, flonum: other_side(call.fixnum, flonum) }
        }
        _ => false,
    }
}

/// Given a flonum next to the fixnum: its neighbour beyond the fixnum. A fixnum that is a flonum has none.
fn other_side(n: i64, flonum: u64) -> u64 {
    let exact = u128::from(n.unsigned_abs());
    match magnitude_of(flonum).cmp(&exact) {
        std::cmp::Ordering::Less => flonum + 1,
        std::cmp::Ordering::Equal => flonum,
        std::cmp::Ordering::Greater => flonum - 1,
    }
}

/// The magnitude of a whole number that is below 2^64.
fn magnitude_of(x: u64) -> u128 {
    match significand_and_places(magnitude(x)) {
        (significand, places @ 0..) => u128::from(significand) >> places.min(127),
        (significand, places) => u128::from(significand) << -places,
    }
}
