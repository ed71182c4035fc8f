
// Lines of the comparison's own, put after the original's unchanged text at build time: a facade over any backend.
impl Random {
    /// The facade over this backend, whatever its state.
    pub fn from_backend(backend: RngBackend) -> Self {
        Self { backend }
    }
}
