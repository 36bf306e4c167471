//! A generator that must not be used. The reference replaces the published draw by one of its own,
//! so every oracle run hands in explicit gamma sets and none may come here.

pub struct PecosRng;

impl PecosRng {
    /// Always panics.
    #[must_use]
    pub fn seed_from_u64(_seed: u64) -> Self {
        panic!("oracle runs pass explicit gamma sets; the published draw is out of scope");
    }

    /// Always panics.
    pub fn next_f64(&mut self) -> f64 {
        panic!("oracle runs pass explicit gamma sets; the published draw is out of scope");
    }
}
