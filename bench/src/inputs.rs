//! Random inputs of limb calls.

use crate::gmp::Mpz;
use crate::random::Random;

/// The same integer in limbs and for GMP.
pub struct Operand {
    pub limbs: Vec<u32>,
    pub gmp: Mpz,
}

impl Operand {
    fn random(random: &mut Random, length: usize, negative: bool) -> Operand {
        let mut limbs: Vec<u32> = (0..length).map(|_| random.next_u32()).collect();
        limbs[length - 1] = limbs[length - 1] >> 1 | u32::from(negative) << 31;
        let gmp = Mpz::from_limbs(&limbs);
        Operand { limbs, gmp }
    }
}

/// What one call of each operation takes.
pub struct Input {
    pub x: Operand,
    pub y: Operand,
    pub z: Operand,
    /// Half as long as x: shifted to the left, it is not longer than the longest operand.
    pub half: Operand,
    /// One limb, not negative.
    pub short: Operand,
    /// The same with padding, as long as x.
    pub padded: Vec<u32>,
    pub position: i64,
    pub bit: i64,
    pub start: i64,
    pub end: i64,
    /// Below the size of the field; 0 where that is empty.
    pub count: i64,
    /// From 0 on.
    pub distance: i64,
    /// The same, of either sign.
    pub signed_distance: i64,
}

/// Inputs with operands of a length. All combinations of signs come equally often.
pub fn inputs(random: &mut Random, length: usize) -> Vec<Input> {
    (0..number(length)).map(|i| input(random, length, i)).collect()
}

/// Operands of a length and sign.
pub fn operands(random: &mut Random, length: usize, negative: bool) -> Vec<Operand> {
    (0..number(length)).map(|_| Operand::random(random, length, negative)).collect()
}

/// How many inputs of a length there are.
fn number(length: usize) -> usize {
    match length {
        0..32 => 256,
        32..1024 => 64,
        _ => 8,
    }
}

fn input(random: &mut Random, length: usize, i: usize) -> Input {
    let bits = 32 * length as i64;
    let a = random.between(0, bits - 1);
    let b = random.between(0, bits - 1);
    let size = (a - b).abs();
    let distance = random.between(0, bits / 2 - 1);
    let short = Operand::random(random, 1, false);
    let mut padded = short.limbs.clone();
    padded.resize(length, 0);
    Input {
        x: Operand::random(random, length, i & 1 != 0),
        y: Operand::random(random, length, i & 2 != 0),
        z: Operand::random(random, length, i & 4 != 0),
        half: Operand::random(random, length.div_ceil(2), i & 1 != 0),
        short,
        padded,
        position: random.between(0, bits - 2),
        bit: random.between(0, 1),
        start: a.min(b),
        end: a.max(b),
        count: random.between(0, (size - 1).max(0)),
        distance,
        signed_distance: if i & 2 == 0 { distance } else { -distance },
    }
}
