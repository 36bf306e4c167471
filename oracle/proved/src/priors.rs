//! The calls over probabilities.

use crate::{Answer, Lists, Size, answer};
use chowderkite_sys::calls::{self, MadeLists};

/// The prior of a mechanism's probability, and times 2^32, into the two.
pub fn prior_of(
    probability: f64,
    mechanism: usize,
    prior: &mut [f64; 1],
    scaled: &mut [i64; 1],
) -> Answer {
    answer(calls::prior_of(probability, mechanism, prior, scaled))
}

/// The priors of probabilities, and times 2^32, into the two lists.
#[inline]
pub fn priors_of(probabilities: &[f64], priors: &mut [f64], scaled: &mut [i64]) -> Answer {
    answer(calls::priors_of(probabilities, priors, scaled))
}

/// The graph of a sparse model that is given by probabilities, and its priors.
pub fn build_sparse_probabilities(
    size: Size,
    probabilities: &[f64],
    detector_offsets: &[u32],
    detectors: &[u32],
    priors: &mut [f64],
    lists: &mut Lists,
) -> Answer {
    let graph = lists.written();
    answer(calls::build_sparse_probabilities(
        size.checks,
        size.mechanisms,
        size.edges,
        probabilities,
        detector_offsets,
        detectors,
        MadeLists { priors, graph },
    ))
}

/// The graph of a dense model that is given by probabilities, and its priors.
pub fn build_dense_probabilities(
    checks: usize,
    mechanisms: usize,
    probabilities: &[f64],
    matrix: &[u8],
    priors: &mut [f64],
    lists: &mut Lists,
) -> Answer {
    let graph = lists.written();
    answer(calls::build_dense_probabilities(
        checks,
        mechanisms,
        probabilities,
        matrix,
        MadeLists { priors, graph },
    ))
}
