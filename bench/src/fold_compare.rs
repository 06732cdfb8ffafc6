//! Compares the running fold of the library and of plain Rust, also on records that are not open.

use crate::binding::{Fold, Refusal};
use crate::plain_fixnum::field::check_rotation;
use crate::plain_fold;
use crate::random::Random;
use crate::timing::require;

const DRAWS: usize = 20_000;
const MOST_BYTES: i64 = 40;

/// Folds bytes in plain Rust.
pub type Chunk = fn(&mut Fold, &[u8]) -> Result<(), Refusal>;

/// Records of which some are not open, each with some bytes and a piece.
pub fn draws(random: &mut Random) {
    for _ in 0..DRAWS {
        let fold = record(random);
        let Fold { width, start, end, count, accumulator } = fold;
        let opened = Fold::new(width, start, end, count, accumulator).map_err(Refusal::from);
        let expected = check_rotation(width, accumulator, start, end, count).map(|()| fold);
        require(opened == expected, "opening a fold", "plain Rust");

        let (mut ours, mut plain) = (fold, fold);
        let size = random.between(0, MOST_BYTES) as usize;
        chunk("a chunk", &mut ours, &mut plain, &random_bytes(random, size), plain_fold::chunk);
        let length = random.next_u64() >> random.between(0, 63);
        join("a join", &mut ours, &mut plain, number(random, width), length);
    }
}

pub fn chunk(name: &str, ours: &mut Fold, plain: &mut Fold, bytes: &[u8], plain_chunk: Chunk) {
    let same = ours.chunk(bytes).result() == plain_chunk(plain, bytes);
    require(same && ours == plain, name, "plain Rust");
}

pub fn join(name: &str, ours: &mut Fold, plain: &mut Fold, piece: i64, n: u64) {
    let same = ours.join(piece, n).result() == plain_fold::join(plain, piece, n);
    require(same && ours == plain, name, "plain Rust");
}

pub fn random_bytes(random: &mut Random, size: usize) -> Vec<u8> {
    (0..size).map(|_| random.between(0, 255) as u8).collect()
}

/// Every field may be just outside its domain.
fn record(random: &mut Random) -> Fold {
    let width = random.between(23, 65);
    let (a, b) = (random.between(0, width), random.between(-1, width - 1));
    let (start, end) = if random.between(0, 9) == 0 { (a, b) } else { (a.min(b), a.max(b)) };
    let count = random.between(-1, (end - start).max(0) + 1);
    let width = width as u64;
    Fold { width, start, end, count, accumulator: number(random, width) }
}

/// A number of either sign, mostly a fixnum at the width.
fn number(random: &mut Random, width: u64) -> i64 {
    let least = -1 << random.between(0, width.min(63) as i64);
    random.between(least, !least)
}
