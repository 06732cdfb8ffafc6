//! Lines of `fl`, a second time, from docs/API.md: how their numbers are read, what is answered, and how it is printed.
//!
//! - `spelling`: a word taken apart: sign, digits before and behind the point, exponent
//! - `value`: the flonum that a word is read as
//! - `hexadecimal`: that of a hexadecimal word, by integers
//! - `exact`: flonums, and the numbers halfway between two of them, written out in decimal
//! - `decimal`, `text`: a flonum as it is printed
//! - `operation`: the operations by name
//! - `answer`: the answer to a line
//! - `cases`: what the compared numbers have to show

pub mod answer;
pub mod cases;
mod decimal;
pub mod exact;
mod hexadecimal;
pub mod operation;
pub mod spelling;
pub mod text;
pub mod value;
