//! The published files with a counter at each branch, and with the reading of a NaN's sign made
//! a choice. It answers as `pecos-bp` does; `oracle branches` checks that on every listed case.

pub mod count;

include!(concat!(env!("OUT_DIR"), "/modules.rs"));

pub use min_sum::{BpGraph, BpScratch, LLR_SATURATION, min_sum_bp_into};
pub use relay::{LegOutcome, RelayBp, RelayConfig, RelayOutcome, Schedule};
