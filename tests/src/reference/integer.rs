//! An integer of any size as a vector of bits and a sign.

/// Bit i of the two's complement form is `bits[i]`, and the sign beyond the vector. The last bit of the vector differs
/// from the sign, so that equal integers have equal vectors.
#[derive(Clone, Debug, PartialEq, Eq)]
pub struct Integer {
    bits: Vec<bool>,
    negative: bool,
}

impl Integer {
    /// The integer with the given sign whose bits below `width` are `bit(i)`.
    pub fn build(width: usize, negative: bool, bit: impl Fn(usize) -> bool) -> Integer {
        let mut bits: Vec<bool> = (0..width).map(bit).collect();
        while bits.last() == Some(&negative) {
            bits.pop();
        }
        Integer { bits, negative }
    }

    pub fn from_limbs(limbs: &[u32]) -> Integer {
        let last = limbs.last().expect("an integer has a limb");
        let bit = |i: usize| (limbs[i / 32] >> (i % 32)) & 1 == 1;
        Integer::build(32 * limbs.len(), last >> 31 == 1, bit)
    }

    pub fn from_i128(n: i128) -> Integer {
        Integer::build(127, n < 0, |i| (n >> i) & 1 == 1)
    }

    /// The same integer, if it has at most 126 bits beside the sign.
    pub fn to_i128(&self) -> Option<i128> {
        if self.length() > 126 {
            return None;
        }
        let low: i128 = (0..self.length()).filter(|&i| self.bit(i)).map(|i| 1 << i).sum();
        Some(if self.negative { low - (1 << self.length()) } else { low })
    }

    /// The shortest form: the fewest limbs that hold the bits and, above them, one bit of sign.
    pub fn to_limbs(&self) -> Vec<u32> {
        let limb = |j: usize| (0..32).filter(|i| self.bit(32 * j + i)).map(|i| 1 << i).sum();
        (0..self.limb_count()).map(limb).collect()
    }

    /// How many limbs the shortest form has.
    pub fn limb_count(&self) -> usize {
        self.length() / 32 + 1
    }

    pub fn bit(&self, i: usize) -> bool {
        self.bits.get(i).copied().unwrap_or(self.negative)
    }

    pub fn is_negative(&self) -> bool {
        self.negative
    }

    pub fn is_zero(&self) -> bool {
        !self.negative && self.bits.is_empty()
    }

    /// How many bits are needed beside the sign: the R6RS length.
    pub fn length(&self) -> usize {
        self.bits.len()
    }
}
