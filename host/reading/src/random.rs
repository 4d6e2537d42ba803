//! Numbers that look random and are the same in every run.

/// Marsaglia's xorshift of 64 bits.
pub struct Random(u64);

impl Random {
    /// A sequence for this seed.
    pub fn new(seed: u64) -> Self {
        // the generator stands still on 0
        Random(seed.wrapping_mul(0x9e37_79b9_7f4a_7c15) | 1)
    }

    /// The next number.
    pub fn number(&mut self) -> u64 {
        self.0 ^= self.0 << 13;
        self.0 ^= self.0 >> 7;
        self.0 ^= self.0 << 17;
        self.0
    }

    /// A number below `limit`. The high bits of the generator are the better ones.
    pub fn below(&mut self, limit: u32) -> u32 {
        (((self.number() >> 32) * u64::from(limit)) >> 32) as u32
    }

    /// One bit.
    pub fn flag(&mut self) -> bool {
        self.below(2) == 1
    }

    /// Any byte.
    pub fn byte(&mut self) -> u8 {
        self.below(256) as u8
    }

    /// So many bytes.
    pub fn bytes(&mut self, length: usize) -> Vec<u8> {
        (0..length).map(|_| self.byte()).collect()
    }

    /// So many pixels below 2^depth.
    pub fn pixels(&mut self, depth: u32, count: usize) -> Vec<u8> {
        (0..count).map(|_| self.below(1 << depth) as u8).collect()
    }

    /// So many colours that a top allows, with any alpha.
    pub fn colors(&mut self, top: u32, count: usize) -> Vec<u8> {
        (0..count)
            .flat_map(|_| {
                let mut component = || self.below(top + 1) as u8;
                let [r, g, b] = [component(), component(), component()];
                [r, g, b, self.byte()]
            })
            .collect()
    }
}
