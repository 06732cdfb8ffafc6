//! Joins: pieces around the limits of the width and beyond, and every number of bytes that is told apart, up to the
//! greatest, for each field at a limit and each count at its own.

use super::fold_settings::accepted;
use crate::checker::Checker;
use quebralua_reference::fixnum_arguments::{beyond, greatest, least, random_fixnum};
use quebralua_reference::fold_call::FoldCall;
use quebralua_reference::reference::fold::Fold;
use quebralua_reference::reference::width::WIDTHS;

pub fn run(checker: &mut Checker) {
    for width in WIDTHS {
        for settings in accepted(&mut checker.random, width) {
            let any = random_fixnum(&mut checker.random, width);
            // A zero accumulator would hide the rotation.
            let record = Fold { accumulator: any | 1 << settings.start.min(width as i64 - 2), ..settings };
            lengths(checker, &record);
            pieces(checker, &record);
        }
    }
}

fn lengths(checker: &mut Checker, record: &Fold) {
    let f = (record.end - record.start) as u64;
    let near = [0, 1, 2, f.saturating_sub(1), f, f + 1, 3 * f + 2, 255, 256, 4096, 100_000];
    let far = [(1 << 32) - 1, 1 << 32, 1 << 58, i64::MAX as u64, 1 << 63, u64::MAX - 1, u64::MAX];
    for n in near.into_iter().chain(far).chain(around_the_word(record.count as u64)) {
        let piece = random_fixnum(&mut checker.random, record.width);
        checker.edge_fold(record, &FoldCall::Join { piece, n });
    }
}

/// The numbers of bytes on either side of those whose product with the count is 2^64.
fn around_the_word(count: u64) -> Vec<u64> {
    match u64::MAX.checked_div(count) {
        Some(n) => vec![n, n.saturating_add(1)],
        None => vec![],
    }
}

fn pieces(checker: &mut Checker, record: &Fold) {
    let (least, greatest) = (least(record.width), greatest(record.width));
    for piece in [0, 1, -1, 255, least, least + 1, greatest, greatest - 1].into_iter().chain(beyond(record.width)) {
        let n = checker.random.choose(&[0, 1, 7, u64::MAX]);
        checker.edge_fold(record, &FoldCall::Join { piece, n });
    }
}
