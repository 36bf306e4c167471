//! The shapes that `min_sum.rs` and `relay.rs` import, with only what they use.

pub mod dem;
pub mod errors;
