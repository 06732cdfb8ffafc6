//! Settings of folds at the limits of a width: those that open, and each of them with one number replaced.

use quebralua_reference::fixnum_arguments::{beyond, greatest, least, random_fixnum};
use quebralua_reference::random::Random;
use quebralua_reference::reference::fold::Fold;

/// How many numbers a record has.
pub const NUMBERS: usize = 5;

/// Fields at either end of the width and inside it, empty, of one bit and as long as can be.
pub fn fields(width: u64) -> [(i64, i64); 9] {
    let last = width as i64 - 1;
    [(0, 0), (last, last), (5, 5), (0, 1), (last - 1, last), (0, last), (0, 8), (3, 12), (1, last - 1)]
}

/// The limits of the counts that a field of f bits takes, each of them once.
pub fn counts(f: i64) -> Vec<i64> {
    let mut counts = vec![0, 1, f - 1, f];
    counts.retain(|count| (0..=f).contains(count));
    counts.sort_unstable();
    counts.dedup();
    counts
}

/// Settings that open: each of those fields with each of those counts, and an accumulator of each kind in turn.
pub fn accepted(random: &mut Random, width: u64) -> Vec<Fold> {
    let mut settings = Vec::new();
    for (start, end) in fields(width) {
        for count in counts(end - start) {
            let any = random_fixnum(random, width);
            let accumulator = random.choose(&[0, -1, least(width), greatest(width), any, any]);
            settings.push(Fold { width, start, end, count, accumulator });
        }
    }
    settings
}

/// The settings with the number in that place replaced, counted from 0 in the record's order. The width is given by its
/// bits.
pub fn replaced(settings: &Fold, place: usize, number: i64) -> Fold {
    let mut settings = *settings;
    match place {
        0 => settings.width = number as u64,
        1 => settings.start = number,
        2 => settings.end = number,
        3 => settings.count = number,
        _ => settings.accumulator = number,
    }
    settings
}

/// Telling numbers for that place: around its limits, which those in the other places set, and far beyond.
pub fn telling(settings: &Fold, place: usize) -> Vec<i64> {
    let Fold { width, start, end, .. } = *settings;
    let w = width as i64;
    let around = match place {
        0 => return vec![0, 1, 23, 24, 25, w - 1, w, w + 1, 63, 64, 65, (1 << 32) + w, i64::MIN, i64::MIN + w, -1],
        1 => vec![-1, 0, 1, end - 1, end, end + 1, w - 1, w],
        2 => vec![-1, 0, start - 1, start, start + 1, w - 2, w - 1, w, w + 1],
        3 => vec![-1, 0, 1, end - start - 1, end - start, end - start + 1, w, 1 << 32],
        _ => vec![0, 1, -1, least(width) + 1, greatest(width) - 1, 255],
    };
    [&around[..], &[least(width), greatest(width)], &beyond(width)].concat()
}
