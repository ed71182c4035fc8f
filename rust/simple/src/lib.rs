//! Marsaglia's xorshift64, which is none of the four generators: it picks seeds and arguments for the comparison and the recorder.

/// A generator of a state of 64 bits, which is never 0.
pub struct Simple(u64);

impl Simple {
    /// From this state, or from 1 for 0.
    pub fn new(start: u64) -> Self {
        Self(start.max(1))
    }

    /// 64 bits.
    pub fn long(&mut self) -> u64 {
        self.0 ^= self.0 << 13;
        self.0 ^= self.0 >> 7;
        self.0 ^= self.0 << 17;
        self.0
    }

    /// 128 bits, the high half first.
    pub fn wide(&mut self) -> u128 {
        (u128::from(self.long()) << 64) | u128::from(self.long())
    }

    /// 32 bits, the high ones of 64.
    pub fn word(&mut self) -> u32 {
        (self.long() >> 32) as u32
    }

    /// A number below the bound (not each as likely as every other).
    pub fn below(&mut self, bound: u32) -> u32 {
        self.word() % bound
    }
}
