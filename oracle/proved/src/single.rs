//! The calls of `exports_compare` over single numbers.

use crate::Clip;

unsafe extern "C" {
    /// The magnitude of `x`.
    pub safe fn chowderkite_magnitude(x: f64) -> f64;

    /// Positive infinity.
    pub safe fn chowderkite_infinity() -> f64;

    /// 1 if `x` is finite, else 0.
    pub safe fn chowderkite_is_finite(x: f64) -> u8;

    /// 1 if `x` is below zero or negative zero, else 0; so 0 of a NaN.
    pub safe fn chowderkite_is_negative(x: f64) -> u8;

    /// Relay's sign of a message: -1 if it is below zero, else 1.
    pub safe fn chowderkite_message_sign(x: f64) -> f64;

    /// `a` times `b` modulo 2^64.
    pub safe fn chowderkite_wrapping_mul(a: u64, b: u64) -> u64;

    /// SplitMix64: the state after a draw from a state.
    pub safe fn chowderkite_next_state(state: u64) -> u64;

    /// SplitMix64: the number that a draw from a state gives.
    pub safe fn chowderkite_draw(state: u64) -> u64;

    /// A draw as a number from 0 to below 1.
    pub safe fn chowderkite_unit(draw: u64) -> f64;

    /// The gamma of a draw.
    pub safe fn chowderkite_gamma(low: f64, high: f64, draw: u64) -> f64;

    /// 1 if 10 passes an alpha, else 0.
    pub safe fn chowderkite_alpha_good(alpha: f64) -> u8;

    /// 1 if 9 passes a clip, else 0.
    pub safe fn chowderkite_clip_good(clip_on: u8, clip: f64) -> u8;

    /// Test 29 alone, of so many iterations that write so many messages each: 1 if it is passed, else 0.
    pub safe fn chowderkite_stores_fit(iterations: u64, each: u64) -> u8;

    /// 1 if a refusal with this number is said of a shot, 0 if it ends the run.
    pub safe fn chowderkite_is_of_shot(number: usize) -> u8;
}

pub use chowderkite_draw as draw;
pub use chowderkite_gamma as gamma;
pub use chowderkite_infinity as infinity;
pub use chowderkite_magnitude as magnitude;
pub use chowderkite_message_sign as message_sign;
pub use chowderkite_next_state as next_state;
pub use chowderkite_unit as unit;
pub use chowderkite_wrapping_mul as wrapping_mul;

pub fn alpha_good(alpha: f64) -> bool {
    chowderkite_alpha_good(alpha) == 1
}

pub fn clip_good(clip: Clip) -> bool {
    chowderkite_clip_good(clip.on, clip.magnitude) == 1
}

pub fn stores_fit(iterations: u64, each: u64) -> bool {
    chowderkite_stores_fit(iterations, each) == 1
}

pub fn is_of_shot(number: u64) -> bool {
    chowderkite_is_of_shot(number as usize) == 1
}

pub fn is_finite(x: f64) -> bool {
    chowderkite_is_finite(x) == 1
}

pub fn is_negative(x: f64) -> bool {
    chowderkite_is_negative(x) == 1
}
