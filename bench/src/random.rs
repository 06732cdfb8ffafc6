//! A small generator of pseudorandom numbers: xorshift64*.

pub struct Random {
    state: u64,
}

impl Random {
    /// The seed is not 0.
    pub fn new(seed: u64) -> Random {
        Random { state: seed }
    }

    pub fn next_u64(&mut self) -> u64 {
        self.state ^= self.state >> 12;
        self.state ^= self.state << 25;
        self.state ^= self.state >> 27;
        self.state.wrapping_mul(0x2545_F491_4F6C_DD1D)
    }

    pub fn next_u32(&mut self) -> u32 {
        (self.next_u64() >> 32) as u32
    }

    /// A number from `least` to `greatest`.
    pub fn between(&mut self, least: i64, greatest: i64) -> i64 {
        let count = u128::from(least.abs_diff(greatest)) + 1;
        let offset = (u128::from(self.next_u64()) * count) >> 64;
        least.wrapping_add_unsigned(offset as u64)
    }
}
