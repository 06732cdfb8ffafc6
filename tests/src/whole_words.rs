//! At width 64 every number that a call can be given is a fixnum, so that refusal 4 never comes there. This is asked of
//! the library's answers, whatever the second implementation says.

use crate::report::difference;
use quebralua_reference::reference::width::WHOLE_WORD;
use quebralua_reference::refusal::NOT_FIXNUM;

/// Ends the program if the call, which is given as C, was refused 4 at that width.
pub fn check(width: u64, refusal: u64, call: impl FnOnce() -> String) {
    if width == WHOLE_WORD && refusal == NOT_FIXNUM {
        difference(&call(), "every number is a fixnum at this width", "refusal 4");
    }
}
