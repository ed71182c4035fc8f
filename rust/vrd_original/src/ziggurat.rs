//! A stand-in for the original's ziggurat, whose tables its build script makes: normal draws are left out.

/// What the sampler would ask of a generator; random.rs implements it.
pub(crate) trait NormalSource {
    /// A 32-bit word.
    #[allow(dead_code)]
    fn next_u32(&mut self) -> u32;

    /// A number from 0 up to, but not including, 1.
    #[allow(dead_code)]
    fn next_f64(&mut self) -> f64;
}

/// Where random.rs asks for a normal number. Left out: it never returns.
pub(crate) fn sample_normal<S: NormalSource>(_source: &mut S) -> f64 {
    unimplemented!("normal draws are left out of this build of the original")
}
