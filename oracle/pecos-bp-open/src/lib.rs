//! The published files with one module more within each. In `relay`: the published iterations, and the same
//! in any order of checks. In `min_sum`: log ratios that no probability need have, and those of probabilities into a list.
//! And [`counting`]: `relay` again, with each message counted that an iteration writes, with a clip that can be put on check messages, and
//! with whole decodes in any order of checks.

mod clip;
mod state;
mod stores;

include!(concat!(env!("OUT_DIR"), "/modules.rs"));

pub use min_sum::priors::{priors_into, with_priors};
pub use min_sum::{BpGraph, BpScratch, LLR_SATURATION, min_sum_bp_into};
pub use relay::step::{iteration, load, step, stepping, store};
pub use relay::{RelayBp, RelayConfig, RelayOutcome, Schedule};
pub use state::State;

/// The copy that counts the messages which its iterations write, and in which a check's message can have a clip. What starts a leg is not
/// counted, and a posterior is no message. With the clip off it does what the published file does, and counts.
pub mod counting {
    pub use crate::min_sum::{BpGraph, BpScratch, LLR_SATURATION, min_sum_bp_into};
    pub use crate::relay_counting::step::{iteration, stepping};
    pub use crate::relay_counting::whole::{decode_in_order, set_clip};
    pub use crate::relay_counting::{RelayBp, RelayConfig, RelayOutcome, Schedule};
    pub use crate::stores::counted;
}
