//! Measures the C library beside GMP and beside plain Rust on one machine in one run, and prints ratios of times as
//! Markdown. docs/BENCHMARKS.md says what is measured and how.

#[allow(dead_code)] // All calls of the header are there; the conversions are not measured.
#[path = "../../tests/src/binding.rs"]
mod binding;
mod count_case;
mod fixnum_calls;
mod fixnum_case;
mod flonum_case;
mod fold_case;
mod fold_compare;
mod gmp;
mod gmp_calls;
mod inputs;
mod limb_calls;
mod limb_case;
mod plain_fixnum;
mod plain_flonum;
mod plain_fold;
mod plain_limbs;
mod plain_rule;
mod random;
mod rule_case;
mod rule_compare;
mod rule_draw;
mod rule_form;
mod tables;
mod timing;

use std::rc::Rc;

use fold_case::FoldCases;
use random::Random;
use rule_case::RuleCases;
use tables::LimbCases;

const SEED: u64 = 20_261_115;

/// How often all cases are gone through: what disturbs one case for a while is over when its turn comes again.
const SWEEPS: usize = 12;

fn main() {
    let mut random = Random::new(SEED);
    let mut limbs = limb_cases(&mut random);
    let mut fixnums = fixnum_case::cases(&mut random);
    let mut folds = fold_case::cases(&mut random);
    let mut rules = rule_case::cases(&mut random);
    let mut counts = count_case::cases(&mut random);
    let mut flonums = flonum_case::cases(&mut random);
    for _ in 0..SWEEPS {
        let lengths = [&mut limbs.one, &mut limbs.medium, &mut limbs.long, &mut limbs.short_results];
        let counts = counts.iter_mut().map(|row| &mut row.case);
        let fixnums = fixnums.iter_mut().map(|row| &mut row.case);
        let folds = folds.iter_mut().flat_map(FoldCases::all);
        let rules = rules.iter_mut().flat_map(RuleCases::both);
        let others = counts.chain(fixnums).chain(folds).chain(rules).chain(&mut flonums);
        for case in lengths.into_iter().flatten().chain(others) {
            case.measure();
        }
    }
    tables::limbs(&limbs);
    println!();
    tables::counts(&counts);
    println!();
    tables::fixnums(&fixnums);
    println!();
    tables::folds(&folds);
    println!();
    tables::rules(&rules);
    println!();
    tables::flonums(&flonums);
    println!();
    tables::aims(&limbs, &counts, &fixnums, &folds, &rules, &flonums);
}

fn limb_cases(random: &mut Random) -> LimbCases {
    let [one, medium, long] = [1, 32, 1024].map(|length| Rc::new(inputs::inputs(random, length)));
    LimbCases {
        one: limb_calls::calls(&one),
        medium: limb_calls::calls(&medium),
        long: limb_calls::calls(&long),
        short_results: limb_calls::short_results(&long),
    }
}
