//! Calls at every limit that the rules name.

mod conversion;
mod fixnum;
mod fixnum_carries;
mod fixnum_fields;
mod fixnum_places;
mod flonum_binding;
mod flonum_extremes;
mod flonum_fixnums;
mod flonum_values;
mod fold_binding;
mod fold_chunks;
mod fold_fields;
mod fold_forged;
mod fold_joins;
mod fold_openings;
mod fold_settings;
mod limb_fields;
mod limb_operands;
mod limb_padded;
mod limb_positions;
mod limb_spellings;
mod limb_trim;
mod limbs;
mod pointers;
mod rule_binding;
mod rule_codes;
mod rule_depths;
mod rule_inputs;
mod rule_lengths;
mod rule_numbers;
mod rule_order;
mod rule_parts;
mod rule_pointers;
mod rule_strings;
mod rule_widths;
mod trim_binding;

use crate::checker::Checker;

pub fn fixnum(checker: &mut Checker) {
    fixnum::run(checker);
    fixnum_carries::run(checker);
    fixnum_fields::run(checker);
    fixnum_places::run(checker);
}

pub fn limbs(checker: &mut Checker) {
    limbs::run(checker);
    limb_fields::run(checker);
    limb_padded::run(checker);
    trim_binding::run();
    limb_trim::run(checker);
    pointers::run(checker);
}

pub fn conversion(checker: &mut Checker) {
    conversion::run(checker);
}

pub fn folds(checker: &mut Checker) {
    fold_binding::run();
    fold_openings::run(checker);
    fold_forged::run(checker);
    fold_chunks::run(checker);
    fold_fields::run(checker);
    fold_joins::run(checker);
}

pub fn rules(checker: &mut Checker) {
    rule_binding::run();
    rule_strings::run(checker);
    rule_numbers::run(checker);
    rule_codes::run(checker);
    rule_widths::run(checker);
    rule_depths::run(checker);
    rule_lengths::run(checker);
    rule_inputs::run(checker);
    rule_order::run(checker);
    rule_pointers::run(checker);
}

pub fn flonums(checker: &mut Checker) {
    flonum_binding::run();
    flonum_values::run(checker);
    flonum_fixnums::run(checker);
    flonum_extremes::run(checker);
}
