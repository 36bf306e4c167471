//! The counters that the marked copy calls. One process-wide table; the oracle is single-threaded.

use crate::SITES;
use std::sync::atomic::{AtomicU8, AtomicU64, Ordering::Relaxed};

/// A place in a published file whose visits are counted.
pub struct Site {
    pub file: &'static str,
    pub line: usize,
    pub what: &'static str,
}

static COUNTS: [AtomicU64; SITES.len()] = [const { AtomicU64::new(0) }; SITES.len()];
static NAN_SIGN: AtomicU8 = AtomicU8::new(0);

/// What a sign-reading operation takes a NaN's sign to be.
#[derive(Clone, Copy, Debug, PartialEq, Eq)]
pub enum NanSign {
    /// Whatever the processor put there, as in the published file.
    AsItIs,
    /// Positive, as the reference has it for the port.
    Positive,
    /// Negative, the other possibility.
    Negative,
}

/// Choose how [`signed`] reads a NaN from now on.
pub fn read_nan_sign(choice: NanSign) {
    NAN_SIGN.store(choice as u8, Relaxed);
}

/// Set every counter to zero.
pub fn reset() {
    for count in &COUNTS {
        count.store(0, Relaxed);
    }
}

/// Every counter, in the order of [`SITES`].
#[must_use]
pub fn counts() -> Vec<u64> {
    COUNTS.iter().map(|count| count.load(Relaxed)).collect()
}

pub fn hit(site: usize) {
    COUNTS[site].fetch_add(1, Relaxed);
}

/// Count which way a condition goes, and hand it on.
pub fn both(yes: usize, no: usize, value: bool) -> bool {
    hit(if value { yes } else { no });
    value
}

/// Count which way a result goes, and hand it on.
pub trait Counted {
    #[must_use]
    fn counted(self, ok: usize, err: usize) -> Self;
}

impl<T, E> Counted for Result<T, E> {
    fn counted(self, ok: usize, err: usize) -> Self {
        hit(if self.is_ok() { ok } else { err });
        self
    }
}

/// `clamp`, counting on which side the value was.
pub trait Clamped {
    #[must_use]
    fn clamped(self, sites: [usize; 3], low: f64, high: f64) -> f64;
}

impl Clamped for f64 {
    fn clamped(self, [below, within, above]: [usize; 3], low: f64, high: f64) -> f64 {
        hit(if self < low {
            below
        } else if self > high {
            above
        } else {
            within
        });
        self.clamp(low, high)
    }
}

/// `magnitude.copysign(sign)`, counting what sign was read, with a NaN's sign read as chosen.
#[must_use]
pub fn signed([positive, negative, nan]: [usize; 3], magnitude: f64, sign: f64) -> f64 {
    if !sign.is_nan() {
        hit(if sign.is_sign_negative() {
            negative
        } else {
            positive
        });
        return magnitude.copysign(sign);
    }
    hit(nan);
    let choice = NAN_SIGN.load(Relaxed);
    if choice == NanSign::Positive as u8 {
        magnitude.copysign(1.0)
    } else if choice == NanSign::Negative as u8 {
        magnitude.copysign(-1.0)
    } else {
        magnitude.copysign(sign)
    }
}
