//! The two sides of the running fold. Making the cases compares them first.

use std::hint::black_box;
use std::rc::Rc;

use crate::binding::{fixnum, Fold, Refusal};
use crate::fold_compare::{self, random_bytes, Chunk};
use crate::plain_fold;
use crate::random::Random;
use crate::timing::{Case, Side};

const WIDTHS: [u64; 4] = [24, 30, 62, 64];

/// The bytes of a chunk, and how many chunks a pass folds.
const CHUNKS: [(usize, usize); 5] = [(0, 256), (16, 256), (256, 64), (4096, 8), (LONGEST, 1)];
pub const LONGEST: usize = 1_048_576;
const SHORT: usize = 1;

/// So many rounds are enough for a pass of more than a millisecond.
const LONG_ROUNDS: usize = 10;

const JOINS: usize = 4096;
/// The bytes of a piece are not more.
const LONGEST_PIECE: i64 = 1 << 20;

const ROTATE: u64 = 40;

type Join = fn(&mut Fold, i64, u64) -> Result<(), Refusal>;

/// A row of the table.
pub struct FoldCases {
    pub width: u64,
    /// By the sizes of the chunks: none, 16, 256, 4,096 and 1,048,576 bytes.
    pub chunks: Vec<Case>,
    /// A chunk of 16 bytes beside plain Rust that does not check the record.
    pub trusting: Case,
    /// A chunk of no bytes beside code 40 of our own.
    pub check: Case,
    pub join: Case,
}

impl FoldCases {
    pub fn all(&mut self) -> impl Iterator<Item = &mut Case> {
        self.chunks.iter_mut().chain([&mut self.trusting, &mut self.check, &mut self.join])
    }
}

pub fn cases(random: &mut Random) -> Vec<FoldCases> {
    fold_compare::draws(random);
    WIDTHS.map(|width| row(random, width)).into()
}

/// All bits but the sign are rotated by 7.
fn row(random: &mut Random, width: u64) -> FoldCases {
    let fold = Fold { width, start: 0, end: width as i64 - 1, count: 7, accumulator: 0 };
    let chunks = CHUNKS.map(|(size, number)| Rc::new((0..number).map(|_| random_bytes(random, size)).collect()));
    let names = CHUNKS.map(|(size, _)| format!("{size} bytes at width {width}"));
    FoldCases {
        width,
        chunks: names
            .iter()
            .zip(&chunks)
            .map(|(name, chunks)| chunk_case(name, fold, chunks, plain_fold::chunk))
            .collect(),
        trusting: chunk_case(&names[SHORT], fold, &chunks[SHORT], plain_fold::trusting_chunk),
        check: check_case(fold, &chunks[0]),
        join: join_case(random, fold),
    }
}

/// The fold runs on from one chunk to the next, in a record in memory. The compiler must not know which function of plain
/// Rust is called.
fn chunk_case(name: &str, fold: Fold, chunks: &Rc<Vec<Vec<u8>>>, plain: Chunk) -> Case {
    let (mut our_fold, mut plain_fold) = (fold, fold);
    for bytes in chunks.iter() {
        fold_compare::chunk(name, &mut our_fold, &mut plain_fold, bytes, plain);
    }
    let plain = black_box(plain);
    let ours = Side::new(chunks, move |bytes| our_fold.chunk(bytes));
    let plain = Side::new(chunks, move |bytes| plain(&mut plain_fold, bytes));
    let case = Case::new(name, ours, None, plain);
    if chunks.len() == 1 {
        case.with_rounds(LONG_ROUNDS)
    } else {
        case
    }
}

/// An empty chunk only checks the record, and that as code 40 checks its arguments.
fn check_case(fold: Fold, empty: &Rc<Vec<Vec<u8>>>) -> Case {
    let (mut our_fold, fold) = (fold, black_box(fold));
    let ours = Side::new(empty, move |bytes| our_fold.chunk(bytes));
    let call = Side::new(empty, move |_| {
        let answer = fixnum(fold.width, ROTATE, 4, [fold.accumulator, fold.start, fold.end, fold.count]);
        match answer.refusal {
            0 => answer.first,
            refusal => refusal as i64,
        }
    });
    Case::new("an empty chunk over code 40", ours, None, call)
}

fn join_case(random: &mut Random, fold: Fold) -> Case {
    let name = format!("join at width {}", fold.width);
    let (mut our_fold, mut plain_fold) = (fold, fold);
    let pieces: Vec<(i64, u64)> =
        (0..JOINS).map(|_| (random.between(0, !(-1 << fold.end)), random.between(0, LONGEST_PIECE) as u64)).collect();
    for &(piece, n) in &pieces {
        fold_compare::join(&name, &mut our_fold, &mut plain_fold, piece, n);
    }
    let (pieces, plain) = (Rc::new(pieces), black_box(plain_fold::join as Join));
    let ours = Side::new(&pieces, move |&(piece, n)| our_fold.join(piece, n));
    let plain = Side::new(&pieces, move |&(piece, n)| plain(&mut plain_fold, piece, n));
    Case::new(&name, ours, None, plain)
}
