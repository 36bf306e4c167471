//! The calls over slices, in safe Rust. A slice goes with its own length, and one that is written is borrowed alone: that is all
//! that a call asks, so these take lists of any length that hold anything, and answer the code.

#![allow(missing_docs)] // the fields are named as the parameters of the calls

/// A graph: the counts as the caller says them, the priors, and the five lists.
#[derive(Clone, Copy, Debug)]
pub struct Graph<'a> {
    pub checks: usize,
    pub mechanisms: usize,
    pub edges: usize,
    pub priors: &'a [f64],
    pub check_var: &'a [u32],
    pub check_offset: &'a [u32],
    pub var_check: &'a [u32],
    pub var_message: &'a [u32],
    pub var_offset: &'a [u32],
}

/// The five lists of a graph, to be written.
#[derive(Debug)]
pub struct GraphLists<'a> {
    pub check_var: &'a mut [u32],
    pub check_offset: &'a mut [u32],
    pub var_check: &'a mut [u32],
    pub var_message: &'a mut [u32],
    pub var_offset: &'a mut [u32],
}

/// What a graph that is given by probabilities has, to be written.
#[derive(Debug)]
pub struct MadeLists<'a> {
    pub priors: &'a mut [f64],
    pub graph: GraphLists<'a>,
}

/// A source of gammas: drawn by shot.
pub const BY_SHOT: u8 = 0;
/// A source of gammas: explicit sets.
pub const EXPLICIT: u8 = 1;
/// A source of gammas: drawn from the seed xor the leg.
pub const SEED_XOR_LEG: u8 = 2;

/// Settings of Relay. `schedule` is 0 for Flooding, `clip_on` for no clip, and `source` is one of the three above.
#[derive(Clone, Copy, Debug)]
pub struct Settings<'a> {
    pub schedule: u8,
    pub alpha: f64,
    pub clip_on: u8,
    pub clip: f64,
    pub gamma0: f64,
    pub pre_iterations: usize,
    pub num_legs: usize,
    pub leg_iterations: usize,
    pub gamma_low: f64,
    pub gamma_high: f64,
    pub stop_after_converged: usize,
    pub source: u8,
    pub sets: usize,
    pub gammas: &'a [f64],
}

/// What [`beliefs`] writes: the posterior is the result, the others are for work.
#[derive(Debug)]
pub struct BeliefLists<'a> {
    pub posterior: &'a mut [f64],
    pub ewa_posterior: &'a mut [f64],
    pub c_to_v: &'a mut [f64],
    pub v_to_c: &'a mut [f64],
}

/// What [`iteration`] takes beside the graph; `schedule` and `clip_on` as in [`Settings`].
#[derive(Clone, Copy, Debug)]
pub struct Iteration<'a> {
    pub schedule: u8,
    pub alpha: f64,
    pub clip_on: u8,
    pub clip: f64,
    pub gamma: &'a [f64],
    pub syndrome: &'a [u8],
    pub order: &'a [u32],
}

/// What [`iteration`] takes and gives back; the bias is for work.
#[derive(Debug)]
pub struct IterationLists<'a> {
    pub c_to_v: &'a mut [f64],
    pub v_to_c: &'a mut [f64],
    pub posterior: &'a mut [f64],
    pub bias: &'a mut [f64],
}

/// What a decode writes; gamma, bias and messages are for work.
#[derive(Debug)]
pub struct DecodeLists<'a> {
    pub leg_state: &'a mut [u8],
    pub leg_steps: &'a mut [u32],
    pub leg_weight: &'a mut [f64],
    pub rows: &'a mut [u8],
    pub correction: &'a mut [u8],
    pub posterior: &'a mut [f64],
    pub gamma: &'a mut [f64],
    pub bias: &'a mut [f64],
    pub c_to_v: &'a mut [f64],
    pub v_to_c: &'a mut [f64],
    /// Converged (1 or 0), executed legs, total iterations, message stores.
    pub counts: &'a mut [u64; 4],
    pub weight: &'a mut [f64; 1],
}

/// Builds the graph of a sparse model.
#[inline]
#[must_use]
pub fn build_sparse(
    checks: usize,
    mechanisms: usize,
    edges: usize,
    priors: &[f64],
    detector_offsets: &[u32],
    detectors: &[u32],
    lists: GraphLists,
) -> u64 {
    // SAFETY: each pointer goes with the length of its own slice, and a slice that is written is borrowed alone.
    unsafe {
        crate::chowderkite_build_sparse(
            checks,
            mechanisms,
            edges,
            priors.as_ptr(),
            priors.len(),
            detector_offsets.as_ptr(),
            detector_offsets.len(),
            detectors.as_ptr(),
            detectors.len(),
            lists.check_var.as_mut_ptr(),
            lists.check_var.len(),
            lists.check_offset.as_mut_ptr(),
            lists.check_offset.len(),
            lists.var_check.as_mut_ptr(),
            lists.var_check.len(),
            lists.var_message.as_mut_ptr(),
            lists.var_message.len(),
            lists.var_offset.as_mut_ptr(),
            lists.var_offset.len(),
        )
    }
}

/// How many bytes of a matrix are not 0.
#[inline]
#[must_use]
pub fn count_edges(matrix: &[u8]) -> usize {
    // SAFETY: as in `build_sparse`.
    unsafe { crate::chowderkite_count_edges(matrix.as_ptr(), matrix.len()) }
}

/// Builds the graph of a dense model.
#[inline]
#[must_use]
pub fn build_dense(
    checks: usize,
    mechanisms: usize,
    priors: &[f64],
    matrix: &[u8],
    lists: GraphLists,
) -> u64 {
    // SAFETY: as in `build_sparse`.
    unsafe {
        crate::chowderkite_build_dense(
            checks,
            mechanisms,
            priors.as_ptr(),
            priors.len(),
            matrix.as_ptr(),
            matrix.len(),
            lists.check_var.as_mut_ptr(),
            lists.check_var.len(),
            lists.check_offset.as_mut_ptr(),
            lists.check_offset.len(),
            lists.var_check.as_mut_ptr(),
            lists.var_check.len(),
            lists.var_message.as_mut_ptr(),
            lists.var_message.len(),
            lists.var_offset.as_mut_ptr(),
            lists.var_offset.len(),
        )
    }
}

/// Tests a graph.
#[inline]
#[must_use]
pub fn check_graph(graph: Graph) -> u64 {
    // SAFETY: as in `build_sparse`.
    unsafe {
        crate::chowderkite_check_graph(
            graph.checks,
            graph.mechanisms,
            graph.edges,
            graph.priors.as_ptr(),
            graph.priors.len(),
            graph.check_var.as_ptr(),
            graph.check_var.len(),
            graph.check_offset.as_ptr(),
            graph.check_offset.len(),
            graph.var_check.as_ptr(),
            graph.var_check.len(),
            graph.var_message.as_ptr(),
            graph.var_message.len(),
            graph.var_offset.as_ptr(),
            graph.var_offset.len(),
        )
    }
}

/// Builds the graph of a sparse model that is given by probabilities.
#[inline]
#[must_use]
pub fn build_sparse_probabilities(
    checks: usize,
    mechanisms: usize,
    edges: usize,
    probabilities: &[f64],
    detector_offsets: &[u32],
    detectors: &[u32],
    lists: MadeLists,
) -> u64 {
    // SAFETY: as in `build_sparse`.
    unsafe {
        crate::chowderkite_build_sparse_probabilities(
            checks,
            mechanisms,
            edges,
            probabilities.as_ptr(),
            probabilities.len(),
            detector_offsets.as_ptr(),
            detector_offsets.len(),
            detectors.as_ptr(),
            detectors.len(),
            lists.priors.as_mut_ptr(),
            lists.priors.len(),
            lists.graph.check_var.as_mut_ptr(),
            lists.graph.check_var.len(),
            lists.graph.check_offset.as_mut_ptr(),
            lists.graph.check_offset.len(),
            lists.graph.var_check.as_mut_ptr(),
            lists.graph.var_check.len(),
            lists.graph.var_message.as_mut_ptr(),
            lists.graph.var_message.len(),
            lists.graph.var_offset.as_mut_ptr(),
            lists.graph.var_offset.len(),
        )
    }
}

/// Builds the graph of a dense model that is given by probabilities.
#[inline]
#[must_use]
pub fn build_dense_probabilities(
    checks: usize,
    mechanisms: usize,
    probabilities: &[f64],
    matrix: &[u8],
    lists: MadeLists,
) -> u64 {
    // SAFETY: as in `build_sparse`.
    unsafe {
        crate::chowderkite_build_dense_probabilities(
            checks,
            mechanisms,
            probabilities.as_ptr(),
            probabilities.len(),
            matrix.as_ptr(),
            matrix.len(),
            lists.priors.as_mut_ptr(),
            lists.priors.len(),
            lists.graph.check_var.as_mut_ptr(),
            lists.graph.check_var.len(),
            lists.graph.check_offset.as_mut_ptr(),
            lists.graph.check_offset.len(),
            lists.graph.var_check.as_mut_ptr(),
            lists.graph.var_check.len(),
            lists.graph.var_message.as_mut_ptr(),
            lists.graph.var_message.len(),
            lists.graph.var_offset.as_mut_ptr(),
            lists.graph.var_offset.len(),
        )
    }
}

/// The prior of a probability, and 2^32 times it; `mechanism` is the place of a refusal.
#[inline]
#[must_use]
pub fn prior_of(
    probability: f64,
    mechanism: usize,
    prior: &mut [f64; 1],
    scaled: &mut [i64; 1],
) -> u64 {
    // SAFETY: both are arrays of the length that the call writes, and apart.
    unsafe { crate::chowderkite_prior_of(probability, mechanism, prior, scaled) }
}

/// The priors of a list of probabilities, and 2^32 times each.
#[inline]
#[must_use]
pub fn priors_of(probabilities: &[f64], priors: &mut [f64], scaled: &mut [i64]) -> u64 {
    // SAFETY: as in `build_sparse`.
    unsafe {
        crate::chowderkite_priors_of(
            probabilities.as_ptr(),
            probabilities.len(),
            priors.as_mut_ptr(),
            priors.len(),
            scaled.as_mut_ptr(),
            scaled.len(),
        )
    }
}

/// Min-sum beliefs; `serial` is 0 for mechanisms that are updated after all checks.
#[inline]
#[must_use]
pub fn beliefs(
    graph: Graph,
    syndrome: &[u8],
    iterations: usize,
    scale: f64,
    serial: u8,
    lists: BeliefLists,
) -> u64 {
    // SAFETY: as in `build_sparse`.
    unsafe {
        crate::chowderkite_beliefs(
            graph.checks,
            graph.mechanisms,
            graph.edges,
            graph.priors.as_ptr(),
            graph.priors.len(),
            graph.check_var.as_ptr(),
            graph.check_var.len(),
            graph.check_offset.as_ptr(),
            graph.check_offset.len(),
            graph.var_check.as_ptr(),
            graph.var_check.len(),
            graph.var_message.as_ptr(),
            graph.var_message.len(),
            graph.var_offset.as_ptr(),
            graph.var_offset.len(),
            syndrome.as_ptr(),
            syndrome.len(),
            iterations,
            scale,
            serial,
            lists.posterior.as_mut_ptr(),
            lists.posterior.len(),
            lists.ewa_posterior.as_mut_ptr(),
            lists.ewa_posterior.len(),
            lists.c_to_v.as_mut_ptr(),
            lists.c_to_v.len(),
            lists.v_to_c.as_mut_ptr(),
            lists.v_to_c.len(),
        )
    }
}

/// The published operating point: its schedule; alpha, gamma0, gamma_low, gamma_high and the clip, 0.0 for off; pre_iterations, num_legs,
/// leg_iterations, stop_after_converged, 1 or 0 for a clip that is on or off, and the source of its gammas.
#[inline]
#[must_use]
pub fn published() -> (u8, [f64; 5], [u64; 6]) {
    let (mut floats, mut counts) = ([0.0; 5], [0; 6]);
    // SAFETY: both are arrays of the length that the call writes, and apart.
    let schedule = unsafe { crate::chowderkite_published(&mut floats, &mut counts) };
    (schedule, floats, counts)
}

/// Tests settings over so many mechanisms.
#[inline]
#[must_use]
pub fn check_settings(settings: Settings, mechanisms: usize) -> u64 {
    // SAFETY: as in `build_sparse`.
    unsafe {
        crate::chowderkite_check_settings(
            settings.schedule,
            settings.alpha,
            settings.clip_on,
            settings.clip,
            settings.gamma0,
            settings.pre_iterations,
            settings.num_legs,
            settings.leg_iterations,
            settings.gamma_low,
            settings.gamma_high,
            settings.stop_after_converged,
            settings.source,
            settings.sets,
            mechanisms,
            settings.gammas.as_ptr(),
            settings.gammas.len(),
        )
    }
}

/// A decode, the checks in index order.
#[inline]
#[must_use]
pub fn decode(
    graph: Graph,
    settings: Settings,
    syndrome: &[u8],
    seed: u64,
    lists: DecodeLists,
) -> u64 {
    // SAFETY: as in `build_sparse`. The two arrays have the length that the call writes.
    unsafe {
        crate::chowderkite_decode(
            graph.checks,
            graph.mechanisms,
            graph.edges,
            graph.priors.as_ptr(),
            graph.priors.len(),
            graph.check_var.as_ptr(),
            graph.check_var.len(),
            graph.check_offset.as_ptr(),
            graph.check_offset.len(),
            graph.var_check.as_ptr(),
            graph.var_check.len(),
            graph.var_message.as_ptr(),
            graph.var_message.len(),
            graph.var_offset.as_ptr(),
            graph.var_offset.len(),
            settings.schedule,
            settings.alpha,
            settings.clip_on,
            settings.clip,
            settings.gamma0,
            settings.pre_iterations,
            settings.num_legs,
            settings.leg_iterations,
            settings.gamma_low,
            settings.gamma_high,
            settings.stop_after_converged,
            settings.source,
            settings.sets,
            settings.gammas.as_ptr(),
            settings.gammas.len(),
            syndrome.as_ptr(),
            syndrome.len(),
            seed,
            lists.leg_state.as_mut_ptr(),
            lists.leg_state.len(),
            lists.leg_steps.as_mut_ptr(),
            lists.leg_steps.len(),
            lists.leg_weight.as_mut_ptr(),
            lists.leg_weight.len(),
            lists.rows.as_mut_ptr(),
            lists.rows.len(),
            lists.correction.as_mut_ptr(),
            lists.correction.len(),
            lists.posterior.as_mut_ptr(),
            lists.posterior.len(),
            lists.gamma.as_mut_ptr(),
            lists.gamma.len(),
            lists.bias.as_mut_ptr(),
            lists.bias.len(),
            lists.c_to_v.as_mut_ptr(),
            lists.c_to_v.len(),
            lists.v_to_c.as_mut_ptr(),
            lists.v_to_c.len(),
            lists.counts,
            lists.weight,
        )
    }
}

/// A decode, the checks in the order that is handed in.
#[inline]
#[must_use]
pub fn decode_in_order(
    graph: Graph,
    settings: Settings,
    syndrome: &[u8],
    seed: u64,
    order: &[u32],
    lists: DecodeLists,
) -> u64 {
    // SAFETY: as in `decode`.
    unsafe {
        crate::chowderkite_decode_in_order(
            graph.checks,
            graph.mechanisms,
            graph.edges,
            graph.priors.as_ptr(),
            graph.priors.len(),
            graph.check_var.as_ptr(),
            graph.check_var.len(),
            graph.check_offset.as_ptr(),
            graph.check_offset.len(),
            graph.var_check.as_ptr(),
            graph.var_check.len(),
            graph.var_message.as_ptr(),
            graph.var_message.len(),
            graph.var_offset.as_ptr(),
            graph.var_offset.len(),
            settings.schedule,
            settings.alpha,
            settings.clip_on,
            settings.clip,
            settings.gamma0,
            settings.pre_iterations,
            settings.num_legs,
            settings.leg_iterations,
            settings.gamma_low,
            settings.gamma_high,
            settings.stop_after_converged,
            settings.source,
            settings.sets,
            settings.gammas.as_ptr(),
            settings.gammas.len(),
            syndrome.as_ptr(),
            syndrome.len(),
            seed,
            order.as_ptr(),
            order.len(),
            lists.leg_state.as_mut_ptr(),
            lists.leg_state.len(),
            lists.leg_steps.as_mut_ptr(),
            lists.leg_steps.len(),
            lists.leg_weight.as_mut_ptr(),
            lists.leg_weight.len(),
            lists.rows.as_mut_ptr(),
            lists.rows.len(),
            lists.correction.as_mut_ptr(),
            lists.correction.len(),
            lists.posterior.as_mut_ptr(),
            lists.posterior.len(),
            lists.gamma.as_mut_ptr(),
            lists.gamma.len(),
            lists.bias.as_mut_ptr(),
            lists.bias.len(),
            lists.c_to_v.as_mut_ptr(),
            lists.c_to_v.len(),
            lists.v_to_c.as_mut_ptr(),
            lists.v_to_c.len(),
            lists.counts,
            lists.weight,
        )
    }
}

/// A leg's state (2 converged, 1 ran out, 0 not executed), iterations and weight.
#[inline]
#[must_use]
pub fn leg_record(
    leg_state: &[u8],
    leg_steps: &[u32],
    leg_weight: &[f64],
    leg: usize,
) -> (u64, u64, f64) {
    let (mut iterations, mut weight) = ([0], [0.0]);
    // SAFETY: each pointer goes with its own list's length; what is written are two arrays of one, apart.
    let state = unsafe {
        crate::chowderkite_leg_record(
            leg_state.as_ptr(),
            leg_state.len(),
            leg_steps.as_ptr(),
            leg_steps.len(),
            leg_weight.as_ptr(),
            leg_weight.len(),
            leg,
            &mut iterations,
            &mut weight,
        )
    };
    (state, iterations[0], weight[0])
}

/// One Relay iteration, the checks in the order that is handed in.
#[inline]
#[must_use]
pub fn iteration(graph: Graph, asked: Iteration, lists: IterationLists) -> u64 {
    // SAFETY: as in `build_sparse`.
    unsafe {
        crate::chowderkite_iteration(
            graph.checks,
            graph.mechanisms,
            graph.edges,
            graph.priors.as_ptr(),
            graph.priors.len(),
            graph.check_var.as_ptr(),
            graph.check_var.len(),
            graph.check_offset.as_ptr(),
            graph.check_offset.len(),
            graph.var_check.as_ptr(),
            graph.var_check.len(),
            graph.var_message.as_ptr(),
            graph.var_message.len(),
            graph.var_offset.as_ptr(),
            graph.var_offset.len(),
            asked.schedule,
            asked.alpha,
            asked.clip_on,
            asked.clip,
            asked.gamma.as_ptr(),
            asked.gamma.len(),
            asked.syndrome.as_ptr(),
            asked.syndrome.len(),
            asked.order.as_ptr(),
            asked.order.len(),
            lists.c_to_v.as_mut_ptr(),
            lists.c_to_v.len(),
            lists.v_to_c.as_mut_ptr(),
            lists.v_to_c.len(),
            lists.posterior.as_mut_ptr(),
            lists.posterior.len(),
            lists.bias.as_mut_ptr(),
            lists.bias.len(),
        )
    }
}
