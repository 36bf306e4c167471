//! The files exactly as published, and what runs a case on them.

pub use pecos_bp as bp;

#[path = "drive.rs"]
pub mod drive;
