//! The tables, in Markdown.

use crate::count_case::{CountCase, LENGTHS};
use crate::fixnum_case::FixnumCase;
use crate::fold_case::{FoldCases, LONGEST};
use crate::rule_case::RuleCases;
use crate::rule_draw::SIZES;
use crate::timing::Case;

/// The cases of the limb calls, in the same order at each length.
pub struct LimbCases {
    pub one: Vec<Case>,
    pub medium: Vec<Case>,
    pub long: Vec<Case>,
    /// Results that are much shorter than their operands, at the largest length.
    pub short_results: Vec<Case>,
}

/// How many times GMP's or plain Rust's time these limb calls may take at 1,024 limbs.
const LIMB_AIM: f64 = 2.0;
const LIMB_AIM_CALLS: [&str; 11] = [
    "bitwise-not",
    "bitwise-and",
    "bitwise-ior",
    "bitwise-xor",
    "bitwise-if",
    "bitwise-bit-field",
    "bitwise-copy-bit-field",
    "bitwise-rotate-bit-field",
    "bitwise-arithmetic-shift",
    "bitwise-arithmetic-shift-left",
    "bitwise-arithmetic-shift-right",
];

/// How many times GMP's time, at the longest length, and plain Rust's a bit count may take.
const COUNT_GMP_AIM: f64 = 1.5;
const COUNT_AIM: f64 = 1.2;

/// How many times plain Rust's time a fixnum call may take.
const FIXNUM_AIM: f64 = 3.0;

/// How many times plain Rust's time a chunk may take.
const FOLD_AIM: f64 = 1.2;

/// How many times plain Rust's time a rule may take.
const RULE_AIM: f64 = 3.0;

/// How many times plain Rust's time a flonum call may take.
const FLONUM_AIM: f64 = 3.0;

/// How many times the least time for a byte the others of the same shape may take.
const LINEAR_AIM: f64 = 1.5;

pub fn limbs(cases: &LimbCases) {
    println!("### Limb calls\n");
    println!("| Limb call | GMP, 1 limb | GMP, 32 | GMP, 1,024 | Rust, 1 limb | Rust, 32 | Rust, 1,024 | Growth |");
    println!("|---|--:|--:|--:|--:|--:|--:|--:|");
    for ((one, medium), long) in cases.one.iter().zip(&cases.medium).zip(&cases.long) {
        let sizes = [one, medium, long];
        let gmp = sizes.map(|case| optional(case.over_gmp())).join(" | ");
        let plain = sizes.map(|case| ratio(case.over_plain())).join(" | ");
        println!("| {} | {gmp} | {plain} | {} |", one.name, ratio(long.growth_from(medium)));
    }
    for case in &cases.short_results {
        println!("| {} | | | {} | | | {} | |", case.name, optional(case.over_gmp()), ratio(case.over_plain()));
    }
}

pub fn counts(rows: &[CountCase]) {
    println!("### Bit counts\n");
    println!("| Limbs | Operands | GMP | Rust |");
    println!("|--:|---|--:|--:|");
    for CountCase { length, negative, case } in rows {
        let sign = if *negative { "negative" } else { "not negative" };
        let ratios = [over_gmp(case), case.over_plain()].map(fine).join(" | ");
        println!("| {} | {sign} | {ratios} |", counted(*length));
    }
}

pub fn fixnums(cases: &[FixnumCase]) {
    println!("### Fixnum calls\n");
    println!("| Code | Fixnum call | Rust |");
    println!("|--:|---|--:|");
    for FixnumCase { code, case } in cases {
        println!("| {code} | {} | {} |", case.name, ratio(case.over_plain()));
    }
}

pub fn folds(rows: &[FoldCases]) {
    println!("### The running fold\n");
    println!(
        "| Width | Rust, no bytes | Rust, 16 | Rust, 256 | Rust, 4,096 | Rust, 1,048,576 | Rust unchecked, 16 | Rust, join | \
         Code 40, no bytes | Million bytes a second |"
    );
    println!("|--:|--:|--:|--:|--:|--:|--:|--:|--:|--:|");
    for FoldCases { width, chunks, trusting, check, join } in rows {
        let beside = chunks.iter().chain([trusting, join, check]).map(|case| fine(case.over_plain()));
        let rate = 1e3 * LONGEST as f64 / chunks[chunks.len() - 1].nanoseconds();
        println!("| {width} | {} | {rate:.0} |", beside.collect::<Vec<_>>().join(" | "));
    }
}

pub fn rules(rows: &[RuleCases]) {
    println!("### Stored rules\n");
    println!(
        "| Forms | Shape | Bytes | Rust, read | Rust, evaluate | Read, ns a byte | Evaluate, ns a byte | \
         Evaluate, ns a form |"
    );
    println!("|--:|---|--:|--:|--:|--:|--:|--:|");
    for RuleCases { shape, forms, bytes, read, evaluate } in rows {
        let ratios = [read, evaluate].map(|case| fine(case.over_plain())).join(" | ");
        let times =
            [read.nanoseconds() / bytes, evaluate.nanoseconds() / bytes, evaluate.nanoseconds() / *forms as f64];
        let (forms, bytes) = (counted(*forms), counted(bytes.round() as usize));
        println!("| {forms} | {} | {bytes} | {ratios} | {} |", shape.name(), times.map(fine).join(" | "));
    }
}

pub fn flonums(cases: &[Case]) {
    println!("### Flonum calls\n");
    println!("| Flonum call | Rust |");
    println!("|---|--:|");
    for case in cases {
        println!("| {} | {} |", case.name, ratio(case.over_plain()));
    }
}

pub fn aims(
    limbs: &LimbCases,
    counts: &[CountCase],
    fixnums: &[FixnumCase],
    folds: &[FoldCases],
    rules: &[RuleCases],
    flonums: &[Case],
) {
    let fixnums = fixnums.iter().map(|row| &row.case);
    let aimed = || limbs.long.iter().filter(|case| LIMB_AIM_CALLS.contains(&case.name.as_str()));
    let least = |case: &Case| over_gmp(case).min(case.over_plain());
    let what = "Logical operations, shifts, bit-field, copy-bit-field, rotate at 1,024 limbs";
    println!("### Aims\n");
    println!("| Aim | Missed by, with the ratio |");
    println!("|---|---|");
    println!("| {what}: within 2 times GMP | {} |", missed(aimed(), over_gmp, LIMB_AIM));
    println!("| The same: within 2 times plain Rust | {} |", missed(aimed(), Case::over_plain, LIMB_AIM));
    println!("| The same: within 2 times one of the two | {} |", missed(aimed(), least, LIMB_AIM));
    count_aims(counts);
    println!("| Fixnum calls: within 3 times plain Rust | {} |", missed(fixnums, Case::over_plain, FIXNUM_AIM));
    // The check of the record hardly counts in the last two sizes, so there the aim is about the loop.
    let long = folds.iter().flat_map(|row| &row.chunks[3..]);
    let short = folds.iter().flat_map(|row| &row.chunks[1..3]);
    println!(
        "| Chunks of 4,096 bytes or more: within 1.2 times plain Rust | {} |",
        missed(long, Case::over_plain, FOLD_AIM)
    );
    println!("| Chunks of 16 and 256 bytes: the same | {} |", missed(short, Case::over_plain, FOLD_AIM));
    rule_aims(rules);
    println!("| Flonum calls: within 3 times plain Rust | {} |", missed(flonums.iter(), Case::over_plain, FLONUM_AIM));
}

fn count_aims(rows: &[CountCase]) {
    let of = |long: bool| {
        rows.iter().filter(move |row| (row.length == LENGTHS[LENGTHS.len() - 1]) == long).map(|row| &row.case)
    };
    println!("| Bit-count at 1,024 limbs: within 1.5 times GMP | {} |", missed(of(true), over_gmp, COUNT_GMP_AIM));
    println!("| The same: within 1.2 times plain Rust | {} |", missed(of(true), Case::over_plain, COUNT_AIM));
    println!("| Bit-count at 1, 4 and 32 limbs: the same | {} |", missed(of(false), Case::over_plain, COUNT_AIM));
}

fn rule_aims(rows: &[RuleCases]) {
    let evaluations = rows.iter().map(|row| &row.evaluate);
    let readings = rows.iter().map(|row| &row.read);
    println!("| Evaluating rules: within 3 times plain Rust | {} |", missed(evaluations, Case::over_plain, RULE_AIM));
    println!("| Reading rules: the same | {} |", missed(readings, Case::over_plain, RULE_AIM));
    let evaluate = |row: &RuleCases| row.evaluate.nanoseconds() / row.bytes;
    let read = |row: &RuleCases| row.read.nanoseconds() / row.bytes;
    println!(
        "| Evaluating a byte: at every size within 1.5 times the least of the shape | {} |",
        uneven(rows, evaluate)
    );
    println!("| Reading a byte: the same | {} |", uneven(rows, read));
}

/// The shapes of which the time differs more between sizes, each with the ratio of the greatest and the least.
fn uneven(rows: &[RuleCases], time: impl Fn(&RuleCases) -> f64) -> String {
    let ratios = rows.chunks(SIZES.len()).map(|rows| {
        let times = || rows.iter().map(&time);
        (rows[0].shape, times().fold(0.0, f64::max) / times().fold(f64::INFINITY, f64::min))
    });
    listed(
        ratios
            .filter(|&(_, ratio)| ratio > LINEAR_AIM)
            .map(|(shape, ratio)| format!("{} {}", shape.name(), fine(ratio))),
    )
}

/// Without end where GMP has no such call.
fn over_gmp(case: &Case) -> f64 {
    case.over_gmp().unwrap_or(f64::INFINITY)
}

/// The cases above the aim, each with its ratio.
fn missed<'a>(cases: impl Iterator<Item = &'a Case>, of: impl Fn(&Case) -> f64, aim: f64) -> String {
    listed(cases.filter(|case| of(case) > aim).map(|case| format!("{} {}", case.name, fine(of(case)))))
}

fn listed(misses: impl Iterator<Item = String>) -> String {
    let misses: Vec<String> = misses.collect();
    if misses.is_empty() {
        "none".to_string()
    } else {
        misses.join(", ")
    }
}

fn optional(value: Option<f64>) -> String {
    value.map_or("–".to_string(), ratio)
}

fn ratio(value: f64) -> String {
    if value < 0.095 {
        format!("{value:.2}")
    } else {
        format!("{value:.1}")
    }
}

/// A number below a million, with a comma at the thousands.
fn counted(number: usize) -> String {
    match number {
        0..1000 => number.to_string(),
        _ => format!("{},{:03}", number / 1000, number % 1000),
    }
}

fn fine(value: f64) -> String {
    format!("{value:.2}")
}
