
// Lines of the comparison's own, put after the original's unchanged text at build time: every state can be set and read.
impl Xoshiro256PlusPlus {
    /// The generator with these four words.
    pub fn from_parts(state: [u64; 4]) -> Self {
        Self { state }
    }

    /// The four words.
    pub fn parts(&self) -> [u64; 4] {
        self.state
    }
}
