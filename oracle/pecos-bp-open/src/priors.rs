    //! Put at the end of the published min_sum.rs by build.rs, as a module of it: `super` is that file.

    use super::{BpGraph, prior_llr};

    /// The graph with these log ratios in the place of those that its probabilities gave.
    #[must_use]
    pub fn with_priors(mut graph: BpGraph, priors: &[f64]) -> BpGraph {
        graph.prior_llr.copy_from_slice(priors);
        graph
    }

    /// The log ratios that the published expression gives for probabilities, into a list of as many.
    pub fn priors_into(probabilities: &[f64], priors: &mut [f64]) {
        for (prior, &probability) in priors.iter_mut().zip(probabilities) {
            *prior = prior_llr(probability);
        }
    }
