//! Operands at the limits: values around powers of two at limb boundaries, of every telling length. Some are padded, and
//! every call but trim refuses these.

use quebralua_reference::random::Random;
use quebralua_reference::random_arguments::limbs::LIMBS;
use quebralua_reference::spellings::is_padded;

/// Every operand of one limb.
pub fn one_limb() -> Vec<Vec<u32>> {
    LIMBS.iter().map(|&limb| vec![limb]).collect()
}

/// The values at that length, which is at least 2: next to powers of two, and small ones that are padded.
pub fn at_length(length: usize, random: &mut Random) -> Vec<Vec<u32>> {
    let tops = [0, 1, 0x7FFF_FFFF, 0x8000_0000, 0xFFFF_FFFF];
    let mut operands = Vec::new();
    for top in tops {
        for low in [0, 0xFFFF_FFFF] {
            operands.push(filled(length, low, top));
        }
    }
    // Bit 31 below the top limb differs from the sign, so that the top limb is needed, or agrees, so that it pads.
    for below_top in [0x8000_0000, 0x7FFF_FFFF] {
        for top in [0, 0xFFFF_FFFF] {
            let mut limbs = filled(length, !top, top);
            limbs[length - 2] = below_top;
            operands.push(limbs);
        }
    }
    for (low, sign) in [(5, 0), (0xFFFF_FFFB, 0xFFFF_FFFF)] {
        let mut limbs = filled(length, sign, sign);
        limbs[0] = low;
        operands.push(limbs);
    }
    operands.push((0..length).map(|_| random.next_u32()).collect());
    operands
}

fn filled(length: usize, low: u32, top: u32) -> Vec<u32> {
    let mut limbs = vec![low; length];
    limbs[length - 1] = top;
    limbs
}

/// Operands of 1, 2 and 3 limbs.
pub fn short(random: &mut Random) -> Vec<Vec<u32>> {
    let mut operands = one_limb();
    operands.extend(at_length(2, random));
    operands.extend(at_length(3, random));
    operands
}

/// Operands of 31, 1,023 and 1,024 limbs.
pub fn long(random: &mut Random) -> Vec<Vec<u32>> {
    let mut operands = at_length(31, random);
    operands.extend(at_length(1023, random));
    operands.extend(at_length(1024, random));
    operands
}

/// The operands that are refused: no limb, 1,025 and more.
pub fn refused() -> Vec<Vec<u32>> {
    vec![vec![], vec![0; 1025], vec![0xFFFF_FFFF; 1025], vec![5; 1025], vec![0; 1026], vec![0; 2048]]
}

/// One legal operand in `step` of the short ones, and two that are padded.
pub fn some_short(random: &mut Random, step: usize) -> Vec<Vec<u32>> {
    let legal = short(random).into_iter().filter(|limbs| !is_padded(limbs)).step_by(step);
    legal.chain([vec![0; 2], vec![u32::MAX; 2]]).collect()
}

/// One operand in `step` of the long ones, beginning at a random one.
pub fn some_long(random: &mut Random, step: usize) -> Vec<Vec<u32>> {
    let begin = random.below(step as u64) as usize;
    long(random).into_iter().skip(begin).step_by(step).collect()
}
