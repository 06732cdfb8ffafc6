//! The report of a difference.

use std::process::exit;

/// Prints the calls, what was expected and what was got, and ends the program with status 1.
pub fn difference(calls: &str, expected: &str, got: &str) -> ! {
    println!("DIFFERENCE\n{calls}\nexpected: {expected}\ngot:      {got}");
    exit(1)
}

/// Limbs as one line.
pub fn shown(limbs: &[u32]) -> String {
    let list: Vec<String> = limbs.iter().map(|limb| format!("{limb:#x}")).collect();
    format!("[{}]", list.join(", "))
}
