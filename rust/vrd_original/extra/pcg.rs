
// Lines of the comparison's own, put after the original's unchanged text at build time: every state can be set and read.
impl Pcg32 {
    /// The generator with this state and this increment in use (not a stream).
    pub fn from_parts(state: u64, inc: u64) -> Self {
        Self { state, inc }
    }

    /// The state and the increment in use.
    pub fn parts(&self) -> (u64, u64) {
        (self.state, self.inc)
    }
}

impl Pcg64 {
    /// The generator with this state and this increment in use (not a stream).
    pub fn from_parts(state: u128, inc: u128) -> Self {
        Self { state, inc }
    }

    /// The state and the increment in use.
    pub fn parts(&self) -> (u128, u128) {
        (self.state, self.inc)
    }
}
