//! Compares the C library with the second implementation: every edge of the calls, random calls, lists of calls, folds,
//! stored rules, and flonums. Then compares the library's answers with each other: at each width with those at the
//! greater ones, and spellings of integers, folds, rules and flonums by their laws. Ends with status 1 at the first
//! difference, and where some operation, width, refusal, place, case of an operand, a fold, a rule or a flonum, or law
//! was never seen.

mod agreement;
mod binding;
mod buffer;
mod checker;
mod combinations;
mod done_widths;
mod edges;
mod flonum_cases;
mod flonum_checker;
mod flonums;
mod fold_cases;
mod fold_checker;
mod folds;
mod library;
mod lists;
mod operand_cases;
mod options;
mod outputs;
mod random_calls;
mod report;
mod rounding_modes;
mod rule_breaches;
mod rule_cases;
mod rule_checker;
mod rules;
mod spelling_laws;
mod tally;
mod whole_words;

use checker::Checker;
use options::{Options, USAGE};
use std::process::exit;
use std::time::Instant;

fn main() {
    let options = match Options::parse(std::env::args().skip(1)) {
        Ok(options) => options,
        Err(message) => {
            eprintln!("{message}\n{USAGE}");
            exit(2);
        }
    };
    println!("seed {}", options.seed);
    let mut checker = Checker::new(&options);
    phase(&mut checker, "edges of the fixnum calls", edges::fixnum);
    phase(&mut checker, "edges of the limb calls", edges::limbs);
    phase(&mut checker, "edges of the conversions", edges::conversion);
    phase(&mut checker, "random calls", |checker| random_calls::run(checker, options.calls));
    phase(&mut checker, "lists of rotate and reverse calls", |checker| lists::run(checker, options.lists));
    let spellings =
        phase(&mut checker, "spellings of integers", |checker| spelling_laws::run(checker, options.calls / 100));
    let agreement = phase(&mut checker, "widths that agree", |checker| agreement::run(checker, options.calls / 20));
    phase(&mut checker, "edges of the folds", edges::folds);
    let laws = phase(&mut checker, "random folds, and their laws", |checker| folds::run(checker, options.folds));
    phase(&mut checker, "edges of the rules", edges::rules);
    let rules = phase(&mut checker, "random rules, and their laws", |checker| rules::run(checker, &options));
    phase(&mut checker, "edges of the flonums", edges::flonums);
    let flonums =
        phase(&mut checker, "random flonums, and their laws", |checker| flonums::run(checker, options.flonums));
    let modes = phase(&mut checker, "rounding modes", rounding_modes::run);
    println!("{spellings}\n{agreement}\n{laws}\n{rules}\n{flonums}\n{modes}\n\n{}", checker.tally);
    let laws_missing = [spellings.missing(), agreement.missing(), laws.missing(), rules.missing()].concat();
    let missing = [checker.tally.missing(), laws_missing, flonums.missing(), modes.missing()].concat();
    if !missing.is_empty() {
        println!("NOT SEEN\n{}", missing.join("\n"));
        exit(1);
    }
    println!("no difference");
}

/// Runs one part of the comparison and prints how many calls it made and how long it took.
fn phase<T>(checker: &mut Checker, name: &str, run: impl FnOnce(&mut Checker) -> T) -> T {
    let (begin, before) = (Instant::now(), checker.made);
    let result = run(checker);
    let (calls, time) = (checker.made - before, begin.elapsed().as_secs_f64());
    println!("{name}: {calls} calls, {time:.1} s");
    result
}
