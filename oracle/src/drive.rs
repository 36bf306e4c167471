//! Runs one case on the Rust. This file is mounted once for each copy of the published files
//! (`super::bp`), so that all are driven by the same text.

use super::bp::{
    BpGraph, BpScratch, RelayBp, RelayConfig, RelayOutcome, Schedule, min_sum_bp_into,
};
use crate::answers::{Decoded, GraphLists, Leg, Refusal, refusal};
use crate::belief_cases::BeliefCase;
use crate::decode_cases::{DecodeCase, Settings};
use crate::graph_cases::{GraphCase, Incidence};
use crate::model::Model;
use crate::stores;
use pecos_decoder_core::dem::{DemCheckMatrix, Matrix};
use pecos_decoder_core::errors::DecoderError;

/// The log ratios that the Rust makes of probabilities.
pub fn priors(probabilities: &[f64]) -> Vec<f64> {
    let without_detectors = Model {
        checks: 0,
        probabilities: probabilities.to_vec(),
        detectors: vec![Vec::new(); probabilities.len()],
    };
    let graph = sparse_graph(&without_detectors).expect("probabilities from 0 to 1");
    graph.prior_llrs().to_vec()
}

pub fn sparse_graph(model: &Model) -> Result<BpGraph, DecoderError> {
    BpGraph::from_sparse_dem(&model.dem())
}

pub fn dense_graph(checks: usize, probabilities: &[f64], matrix: &[u8]) -> BpGraph {
    BpGraph::from_dcm(&DemCheckMatrix {
        check_matrix: Matrix::new(checks, probabilities.len(), matrix.to_vec()),
        error_priors: probabilities.to_vec(),
        num_detectors: checks,
    })
}

pub fn graph(case: &GraphCase) -> Result<GraphLists, Refusal> {
    let mechanisms = case.probabilities.len();
    let graph = match &case.incidence {
        Incidence::Sparse(detectors) => sparse_graph(&Model {
            checks: case.checks,
            probabilities: case.probabilities.clone(),
            detectors: detectors.clone(),
        })
        .map_err(|error| refusal(&error, mechanisms))?,
        Incidence::Dense(matrix) => dense_graph(case.checks, &case.probabilities, matrix),
    };
    assert_eq!(graph.check_count(), case.checks);
    assert_eq!(graph.mechanism_count(), mechanisms);
    assert_eq!(graph.edge_count(), case.edges());
    Ok(GraphLists::from_debug(&format!("{graph:?}")))
}

pub fn beliefs(case: &BeliefCase) -> Result<Vec<f64>, Refusal> {
    let graph = sparse_graph(&case.model).expect("belief cases have models that build");
    beliefs_over(&graph, case)
}

/// The same over a graph that is handed in.
pub fn beliefs_over(graph: &BpGraph, case: &BeliefCase) -> Result<Vec<f64>, Refusal> {
    let mut posterior = vec![0.0; graph.mechanism_count()];
    min_sum_bp_into(
        graph,
        &case.syndrome,
        case.iterations,
        case.scale,
        case.serial,
        &mut BpScratch::new(graph),
        &mut posterior,
    )
    .map_err(|error| refusal(&error, case.model.mechanisms()))?;
    Ok(posterior)
}

pub fn config(settings: &Settings, sets: Option<Vec<Vec<f64>>>) -> RelayConfig {
    RelayConfig {
        schedule: if settings.serial {
            Schedule::CheckSerial
        } else {
            Schedule::Flooding
        },
        alpha: settings.alpha,
        gamma0: settings.gamma0,
        pre_iterations: settings.pre_iterations,
        num_legs: settings.num_legs,
        leg_iterations: settings.leg_iterations,
        gamma_range: (settings.low, settings.high),
        stop_after_converged: settings.stop,
        explicit_gammas: sets,
    }
}

pub fn decode(case: &DecodeCase) -> Result<Decoded, Refusal> {
    let graph = sparse_graph(&case.model).expect("decode cases have models that build");
    decode_over(graph, case)
}

/// The same over a graph that is handed in.
///
/// # Panics
///
/// If the case has a clip, which the Rust has not.
pub fn decode_over(graph: BpGraph, case: &DecodeCase) -> Result<Decoded, Refusal> {
    assert_eq!(case.settings.clip, None);
    decode_by(graph, case, |decoder| {
        decoder.decode(&case.syndrome, case.seed)
    })
}

/// The same by some call of the decoder, which may have put a clip on.
pub fn decode_by(
    graph: BpGraph,
    case: &DecodeCase,
    decode: impl FnOnce(&mut RelayBp) -> Result<RelayOutcome, DecoderError>,
) -> Result<Decoded, Refusal> {
    let mechanisms = case.model.mechanisms();
    let number = |error: DecoderError| refusal(&error, mechanisms);
    let config = config(&case.settings, case.explicit_sets());
    let mut decoder = RelayBp::new(graph, config).map_err(number)?;
    assert_eq!(decoder.graph().mechanism_count(), mechanisms);
    assert_eq!(decoder.config().num_legs, case.settings.num_legs);
    let outcome = decode(&mut decoder).map_err(number);
    // 27 is ours: behind the Rust's tests, the last of which is 21, and before its legs.
    if !case.takes_seed() && !matches!(&outcome, Err(refusal) if refusal.code <= 21) {
        return Err(Refusal { code: 27, place: 0 });
    }
    let outcome = outcome?;
    assert_eq!(outcome.converged, outcome.weight.is_some());
    let legs = outcome.legs.into_iter().map(|leg| {
        assert_eq!(leg.converged, leg.weight.is_some());
        Leg {
            iterations: leg.iterations,
            found: leg.weight.zip(leg.correction),
        }
    });
    Ok(Decoded {
        weight: outcome.weight,
        total: outcome.total_iterations,
        stores: None,
        legs: legs.collect(),
        correction: outcome.correction,
        posterior: outcome.posterior,
    })
}

/// The case's line, with this copy's answer.
pub fn graph_line(case: &GraphCase) -> String {
    case.line(&priors(&case.probabilities), &graph(case))
}

/// The case's line, with this copy's answer.
pub fn belief_line(case: &BeliefCase) -> String {
    case.line(&priors(&case.model.probabilities), &beliefs(case))
}

/// The case's line, with this copy's answer, and beside it the messages that were written, which one copy alone counts.
pub fn decode_line(case: &DecodeCase) -> String {
    let answer = decode(case).map(|outcome| Decoded {
        stores: stores::decode(case).ok().and_then(|same| same.stores),
        ..outcome
    });
    case.line(&priors(&case.model.probabilities), &answer)
}
