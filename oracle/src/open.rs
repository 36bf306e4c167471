//! The copy that takes log ratios, and what runs a case on it.

pub use pecos_bp_open as bp;

#[path = "drive.rs"]
pub mod drive;
