//! The single Relay iteration.

use crate::{BpGraph, Error, Schedule};
use chowderkite_sys::calls;

/// Messages and posterior between two iterations, in the caller's hands.
#[derive(Clone, Debug, PartialEq)]
pub struct RelayState {
    /// What each check last sent, by message number.
    pub c_to_v: Vec<f64>,
    /// What each mechanism last sent, by message number.
    pub v_to_c: Vec<f64>,
    /// The posterior log ratio of each mechanism.
    pub posterior: Vec<f64>,
    bias: Vec<f64>,
}

impl RelayState {
    /// As a decode starts: the posterior at the priors, and messages as each leg starts with them.
    #[must_use]
    pub fn new(graph: &BpGraph) -> Self {
        let mut state = Self {
            c_to_v: Vec::new(),
            v_to_c: Vec::new(),
            posterior: graph.prior_llrs().to_vec(),
            bias: vec![0.0; graph.mechanism_count()],
        };
        state.start_leg(graph);
        state
    }

    /// As the next leg starts: check messages cleared, variable messages at the priors. The posterior carries on.
    pub fn start_leg(&mut self, graph: &BpGraph) {
        self.c_to_v.clear();
        self.c_to_v.resize(graph.edge_count(), 0.0);
        self.v_to_c.clear();
        // An entry's place in `check_var` is its message number.
        let priors = graph.prior_llrs();
        let mechanisms = graph.lists().check_var.iter();
        self.v_to_c
            .extend(mechanisms.map(|&mechanism| priors[mechanism as usize]));
    }
}

/// One Relay iteration over a state, the checks in a given order.
///
/// A decode repeats this step. It takes every order that names each check once, those too that a decode refuses with 24: under
/// [`Schedule::CheckSerial`] an order can change what comes out. `clip` is that of [`RelayConfig`](crate::RelayConfig), `None` for off,
/// and `gamma` has a memory strength for each mechanism.
///
/// ```
/// use chowderkite::{iteration, BpGraph, RelayState, Schedule};
///
/// let graph = BpGraph::from_sparse(2, &[(4.0, vec![0]), (4.0, vec![0, 1]), (4.0, vec![1])])?;
/// let first = |clip: Option<f64>, order: [u32; 2]| {
///     let mut state = RelayState::new(&graph);
///     iteration(&graph, Schedule::CheckSerial, 1.0, clip, &[0.0; 3], &[1, 0], &order, &mut state)?;
///     Ok::<_, chowderkite::Error>(state.posterior)
/// };
/// assert_eq!(first(None, [0, 1])?, [0.0, 4.0, 4.0]);
/// assert_eq!(first(None, [1, 0])?, [-4.0, 4.0, 8.0]);
/// assert_eq!(first(Some(1.0), [0, 1])?, [3.0, 4.0, 5.0]);
/// # Ok::<(), chowderkite::Error>(())
/// ```
///
/// # Errors
///
/// 9, 10, 20 to 23, 25, 30. 22 is for gammas or a state that do not fit the graph. 30 leaves positive zeroes in the state, and
/// the others leave it as it was.
#[allow(clippy::too_many_arguments)] // as the proved call has them
pub fn iteration(
    graph: &BpGraph,
    schedule: Schedule,
    alpha: f64,
    clip: Option<f64>,
    gamma: &[f64],
    syndrome: &[u8],
    order: &[u32],
    state: &mut RelayState,
) -> Result<(), Error> {
    let asked = calls::Iteration {
        schedule: schedule.byte(),
        alpha,
        clip_on: u8::from(clip.is_some()),
        clip: clip.unwrap_or(0.0),
        gamma,
        syndrome,
        order,
    };
    let lists = calls::IterationLists {
        c_to_v: &mut state.c_to_v,
        v_to_c: &mut state.v_to_c,
        posterior: &mut state.posterior,
        bias: &mut state.bias,
    };
    Error::of_code(calls::iteration(graph.lent(), asked, lists))
}
