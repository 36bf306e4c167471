//! Min-sum beliefs.

use crate::{BpGraph, Error};
use chowderkite_sys::calls;

/// Work lists of [`min_sum_into`], to be used again for every shot over a graph.
#[derive(Clone, Debug)]
pub struct BpScratch {
    ewa_posterior: Vec<f64>,
    c_to_v: Vec<f64>,
    v_to_c: Vec<f64>,
}

impl BpScratch {
    /// Lists that fit a graph.
    #[must_use]
    pub fn new(graph: &BpGraph) -> Self {
        Self {
            ewa_posterior: vec![0.0; graph.mechanism_count()],
            c_to_v: vec![0.0; graph.edge_count()],
            v_to_c: vec![0.0; graph.edge_count()],
        }
    }
}

/// Min-sum beliefs: a posterior log ratio for each mechanism, below 0 where it more likely happened than not.
///
/// A syndrome byte that is not 0 is 1. `serial` updates mechanisms after each check, and otherwise after all. The scale is not
/// tested.
///
/// ```
/// use chowderkite::{min_sum, BpGraph};
///
/// let graph = BpGraph::from_sparse(2, &[(4.0, vec![0]), (4.0, vec![0, 1]), (4.0, vec![1])])?;
/// let beliefs = min_sum(&graph, &[1, 0], 1, 1.0, false)?;
/// assert_eq!(beliefs, [0.0, 4.0, 8.0]);
/// # Ok::<(), chowderkite::Error>(())
/// ```
///
/// # Errors
///
/// 12, 20, 30.
pub fn min_sum(
    graph: &BpGraph,
    syndrome: &[u8],
    iterations: usize,
    scale: f64,
    serial: bool,
) -> Result<Vec<f64>, Error> {
    let mut posterior = vec![0.0; graph.mechanism_count()];
    let mut scratch = BpScratch::new(graph);
    min_sum_into(
        graph,
        syndrome,
        iterations,
        scale,
        serial,
        &mut scratch,
        &mut posterior,
    )?;
    Ok(posterior)
}

/// [`min_sum()`] into lists that the caller keeps, which allocates nothing.
///
/// ```
/// use chowderkite::{min_sum_into, BpGraph, BpScratch};
///
/// let graph = BpGraph::from_sparse(2, &[(4.0, vec![0]), (4.0, vec![0, 1]), (4.0, vec![1])])?;
/// let mut scratch = BpScratch::new(&graph);
/// let mut posterior = vec![0.0; graph.mechanism_count()];
/// for syndrome in [[1, 0], [0, 0], [1, 1]] {
///     min_sum_into(&graph, &syndrome, 10, 0.75, true, &mut scratch, &mut posterior)?;
/// }
/// # Ok::<(), chowderkite::Error>(())
/// ```
///
/// # Errors
///
/// 12, 20, 22, 30. 22 is for a posterior or a scratch that does not fit the graph. 30 leaves positive zeroes in the posterior,
/// and the others leave it as it was.
#[doc(alias = "min_sum_bp_into")]
pub fn min_sum_into(
    graph: &BpGraph,
    syndrome: &[u8],
    iterations: usize,
    scale: f64,
    serial: bool,
    scratch: &mut BpScratch,
    posterior: &mut [f64],
) -> Result<(), Error> {
    let lists = calls::BeliefLists {
        posterior,
        ewa_posterior: &mut scratch.ewa_posterior,
        c_to_v: &mut scratch.c_to_v,
        v_to_c: &mut scratch.v_to_c,
    };
    Error::of_code(calls::beliefs(
        graph.lent(),
        syndrome,
        iterations,
        scale,
        u8::from(serial),
        lists,
    ))
}
