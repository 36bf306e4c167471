//! The published Rust as an oracle: the reference's small runs, fixed lists of cases with the Rust's
//! answers, and a count of the branches that those cases take. A library, so that the comparison and the benchmark draw
//! the same models.

// `drive.rs` is mounted once for each copy of the published files, on purpose.
#![allow(clippy::duplicate_mod)]

pub mod answers;
pub mod belief_cases;
pub mod bits;
pub mod branches;
pub mod counted;
pub mod decode_cases;
pub mod exact;
pub mod graph_cases;
pub mod line;
pub mod lists;
pub mod model;
pub mod open;
pub mod runs;
pub mod splitmix;
pub mod stores;
pub mod tally;
pub mod toolchain;
