//! Lines of `ql batch` and the answers that docs/API.md promises for them.
//!
//! - `lines`: makes random lines, legal and not
//! - `numeral`: writes a number as a word, in every notation
//! - `reader`: reads a word as a number, by the rules of the manual
//! - `text`: a result as text
//! - `answer`: the answer to a line, by `reader` and the second implementation
//! - `expected`: such an answer, and how an answer line is compared with it
//! - `reason`: how the reason of a refusal begins
//! - `form`: the operations as a line can name them
//! - `flonum`: all of this for the lines of `fl`

pub mod answer;
pub mod expected;
pub mod flonum;
pub mod form;
pub mod lines;
pub mod numeral;
pub mod reader;
pub mod reason;
pub mod text;
