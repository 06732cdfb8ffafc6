//! Openings, over records of every kind: each set of numbers that are no fixnums, each combination of starts, ends and
//! counts inside and outside their domains, and refused and accepted openings in turn on one record.

use super::fold_settings::accepted;
use crate::checker::Checker;
use quebralua_reference::fixnum_arguments::{beyond, greatest, least, nearest_accepted, random_fixnum, refused_widths};
use quebralua_reference::fold_call::FoldCall;
use quebralua_reference::random_arguments::fold::record;
use quebralua_reference::reference::fold::{Fold, ZERO};
use quebralua_reference::reference::width::WIDTHS;

pub fn run(checker: &mut Checker) {
    for width in WIDTHS.chain(refused_widths()) {
        not_fixnums(checker, width);
    }
    for width in WIDTHS {
        domains(checker, width);
        in_turn(checker, width);
    }
}

/// Opens over a record that is a fold or not.
fn open(checker: &mut Checker, settings: Fold) {
    let record = record(&mut checker.random, nearest_accepted(settings.width));
    checker.edge_fold(&record, &FoldCall::Open(settings));
}

/// Each set of the four numbers is replaced by ones beyond each limit. The others are legal, or outside a domain, which
/// comes after. At width 64 the numbers at the limits stand there, and are never refused 4.
fn not_fixnums(checker: &mut Checker, width: u64) {
    let beyond = beyond(nearest_accepted(width));
    for others in [[5, 1, 1, 0], [5, 1, 9, 8], [5, 0, 0, -1], [5, -1, 2, 3], [5, 2, 1, 1]] {
        for turn in 0..beyond.len() {
            for set in 0..16 {
                let is_replaced = |i: usize| (set >> i) & 1 == 1;
                let number = |i: usize| if is_replaced(i) { beyond[(i + turn) % 4] } else { others[i] };
                let [accumulator, start, end, count] = std::array::from_fn(number);
                open(checker, Fold { width, start, end, count, accumulator });
            }
        }
    }
}

/// Ends lie around the start, and counts around the size of the field, beside the limits of a domain.
fn domains(checker: &mut Checker, width: u64) {
    let (w, least, greatest) = (width as i64, least(width), greatest(width));
    for start in [least, -1, 0, 1, w / 2, w - 1, w, greatest] {
        for end in [least, -1, 0, 1, start.wrapping_sub(1), start, start.wrapping_add(1), w - 1, w, greatest] {
            let f = end.wrapping_sub(start);
            for count in [least, -1, 0, 1, f.wrapping_sub(1), f, f.wrapping_add(1), w, greatest] {
                let accumulator = random_fixnum(&mut checker.random, width);
                open(checker, Fold { width, start, end, count, accumulator });
            }
        }
    }
}

/// One record is opened and folded into, refused, and opened again, by each settings that open. Whatever a refused
/// opening was over, nothing can be done with the record until an accepted one starts afresh.
fn in_turn(checker: &mut Checker, width: u64) {
    let mut record = ZERO;
    for settings in accepted(&mut checker.random, width) {
        let past = Fold { end: width as i64, ..settings };
        let narrow = Fold { width: WIDTHS.start() - 1, ..settings };
        for refused in [past, narrow, Fold { count: -1, ..settings }] {
            if !checker.is_chosen() {
                continue;
            }
            for settings in [settings, refused, refused, settings, settings] {
                checker.fold(&mut record, &FoldCall::Open(settings));
                for call in [FoldCall::Chunk(&[]), FoldCall::Chunk(&[0x80, 1]), FoldCall::Read] {
                    checker.fold(&mut record, &call);
                }
                checker.fold(&mut record, &FoldCall::Join { piece: 3, n: 2 });
            }
        }
    }
}
