//! `min_sum.rs` and `relay.rs`, compiled from the published text as it stands.

include!(concat!(env!("OUT_DIR"), "/modules.rs"));

pub use min_sum::{BpGraph, BpScratch, LLR_SATURATION, min_sum_bp_into};
pub use relay::{LegOutcome, RelayBp, RelayConfig, RelayOutcome, Schedule};
