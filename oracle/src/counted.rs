//! The copy with counters, and what runs a case on it.

pub use pecos_bp_counted as bp;

#[path = "drive.rs"]
pub mod drive;
