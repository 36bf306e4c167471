//! One shot decoded by the published Rust. It runs in the open copy, because a stream's priors are log ratios that need not be any
//! probability's; `compare` holds that copy to the files as published.

use crate::stream::{Model, Settings};
use oracle::splitmix::relay_sets;
use pecos_bp_open::{BpGraph, RelayBp, RelayConfig, Schedule, with_priors};
use pecos_decoder_core::dem::SparseDem;
use pecos_decoder_core::errors::DecoderError;

#[derive(Clone, Debug, PartialEq, Eq)]
pub struct Decoded {
    pub converged: bool,
    pub total: usize,
    pub legs: usize,
    pub bits: Vec<u8>,
}

/// The posterior was not finite after a leg: refusal 30.
#[derive(Clone, Copy, Debug, PartialEq, Eq)]
pub struct NotFinite;

fn graph(model: &Model) -> BpGraph {
    let probability = 0.5; // Any will do.
    let mechanisms = model.mechanisms.iter();
    let graph = BpGraph::from_sparse_dem(&SparseDem {
        mechanisms: mechanisms
            .map(|mechanism| (probability, mechanism.detectors.clone(), Vec::new()))
            .collect(),
        num_detectors: model.checks as usize,
    });
    let priors: Vec<f64> = model.mechanisms.iter().map(|m| m.prior).collect();
    with_priors(graph.expect("4 to 6 let the model through"), &priors)
}

/// The Rust's outcome. The seeded draw is the reference's and not PECOS's, so the Rust gets its gammas as explicit sets.
pub fn decode(
    model: &Model,
    settings: &Settings,
    seed: u64,
    syndrome: &[u8],
) -> Result<Decoded, NotFinite> {
    let sets = relay_sets(
        settings.rule,
        seed,
        settings.legs as usize,
        model.mechanisms.len(),
        (settings.low, settings.high),
    );
    let config = RelayConfig {
        schedule: if settings.schedule == 0 {
            Schedule::Flooding
        } else {
            Schedule::CheckSerial
        },
        alpha: settings.alpha,
        gamma0: settings.gamma0,
        pre_iterations: settings.pre as usize,
        num_legs: settings.legs as usize,
        leg_iterations: settings.leg_iterations as usize,
        gamma_range: (settings.low, settings.high),
        stop_after_converged: settings.stop as usize,
        explicit_gammas: Some(sets),
    };
    let mut decoder =
        RelayBp::new(graph(model), config).expect("10 to 16 let the settings through");
    match decoder.decode(syndrome, seed) {
        Ok(outcome) => Ok(Decoded {
            converged: outcome.converged,
            total: outcome.total_iterations,
            legs: outcome.legs.len(),
            bits: outcome.correction,
        }),
        Err(DecoderError::InternalError(_)) => Err(NotFinite),
        Err(error) => panic!("20, 21 and 27 let the shot through, and the Rust says {error:?}"),
    }
}
