//! The Tanner graph.

use crate::{version, Error, MAX_CHECKS, MAX_EDGES, MAX_MECHANISMS};
use chowderkite_sys::calls;
use chowderkite_sys::lists::{self, Size};
use std::ops::Range;

/// The five lists that hold a graph's incidences.
///
/// A message is an edge's, and message numbers run check by check, mechanisms rising within a check. So an entry's place in
/// `check_var` is its message number. A mechanism's entries rise by check.
#[derive(Clone, Debug, Default, PartialEq, Eq, Hash)]
pub struct GraphLists {
    /// The mechanism of each check entry, check by check.
    pub check_var: Vec<u32>,
    /// Check `c` has the entries `check_offset[c]..check_offset[c + 1]`.
    pub check_offset: Vec<u32>,
    /// The check of each mechanism entry, mechanism by mechanism.
    pub var_check: Vec<u32>,
    /// The message number of each mechanism entry.
    pub var_message: Vec<u32>,
    /// Mechanism `m` has the entries `var_offset[m]..var_offset[m + 1]`.
    pub var_offset: Vec<u32>,
}

/// A Tanner graph with its priors: built once, used for every shot.
///
/// It is given by probabilities, or by priors: log ratios `ln((1 - p) / p)` from -30 to 30. [The crate's front page](crate#priors)
/// says how the one makes the other.
///
/// ```
/// use chowderkite::BpGraph;
///
/// let graph = BpGraph::from_probabilities(2, &[(0.01, vec![0]), (0.02, vec![0, 1]), (0.01, vec![1])])?;
/// assert_eq!((graph.check_count(), graph.mechanism_count(), graph.edge_count()), (2, 3, 4));
/// assert_eq!(graph.detectors(1), [0, 1]);
/// assert_eq!(graph.mechanisms(0), [0, 1]);
///
/// let dense = BpGraph::from_dense_probabilities(2, &[0.01, 0.02, 0.01], &[1, 1, 0, 0, 1, 1])?;
/// assert_eq!(dense, graph);
///
/// let priors = graph.prior_llrs().to_vec();
/// let of_priors = BpGraph::from_dense(2, priors, &[1, 1, 0, 0, 1, 1])?;
/// assert_eq!(of_priors, graph);
/// # Ok::<(), chowderkite::Error>(())
/// ```
#[derive(Clone, Debug, PartialEq)]
pub struct BpGraph {
    // As they were said or counted; whether the lists fit them is for the calls to judge.
    checks: usize,
    mechanisms: usize,
    edges: usize,
    priors: Vec<f64>,
    lists: GraphLists,
}

impl BpGraph {
    /// The graph of a sparse model that is given by probabilities: a probability and detectors for each mechanism, detectors in
    /// any order. Those of a mechanism with thousands should rise: from the first that does not, each is compared with all before
    /// it. [`prior_llrs`](Self::prior_llrs) then has the priors that the archive made, as [`prior_of`](crate::prior_of) has each.
    ///
    /// # Errors
    ///
    /// 1; then mechanism by mechanism 8, 5, 6: the probability, then each detector in its order, range before repeat.
    #[doc(alias = "from_sparse_dem")]
    pub fn from_probabilities<D: AsRef<[u32]>>(
        checks: usize,
        mechanisms: &[(f64, D)],
    ) -> Result<Self, Error> {
        let flat = Flat::of(mechanisms);
        Self::from_probability_lists(checks, &flat.numbers, &flat.offsets, &flat.detectors)
    }

    /// The graph of a sparse model that is given by probabilities, in flat lists: mechanism `m` has the detectors
    /// `detectors[detector_offsets[m]..detector_offsets[m + 1]]`. There are as many mechanisms as probabilities.
    ///
    /// ```
    /// use chowderkite::BpGraph;
    ///
    /// let flat = BpGraph::from_probability_lists(2, &[0.01; 3], &[0, 1, 3, 4], &[0, 0, 1, 1])?;
    /// let nested = BpGraph::from_probabilities(2, &[(0.01, vec![0]), (0.01, vec![0, 1]), (0.01, vec![1])])?;
    /// assert_eq!(flat, nested);
    /// # Ok::<(), chowderkite::Error>(())
    /// ```
    ///
    /// # Errors
    ///
    /// 1, 2, 3; then mechanism by mechanism 8, 5, 6.
    pub fn from_probability_lists(
        checks: usize,
        probabilities: &[f64],
        detector_offsets: &[u32],
        detectors: &[u32],
    ) -> Result<Self, Error> {
        let size = Size {
            checks,
            mechanisms: probabilities.len(),
            edges: detectors.len(),
        };
        Self::built(size, vec![0.0; size.mechanisms], |priors, graph| {
            calls::build_sparse_probabilities(
                size.checks,
                size.mechanisms,
                size.edges,
                probabilities,
                detector_offsets,
                detectors,
                calls::MadeLists { priors, graph },
            )
        })
    }

    /// The graph of a dense matrix and of probabilities. The matrix lies check by check: byte `c * mechanisms + m` is not 0 where
    /// mechanism `m` sets off check `c`. There are as many mechanisms as probabilities.
    ///
    /// # Errors
    ///
    /// 1 for the counts, 2 for the matrix, 1 for the edges, then 8.
    #[doc(alias = "from_dcm")]
    pub fn from_dense_probabilities(
        checks: usize,
        probabilities: &[f64],
        matrix: &[u8],
    ) -> Result<Self, Error> {
        version::check();
        let size = Size {
            checks,
            mechanisms: probabilities.len(),
            edges: calls::count_edges(matrix),
        };
        Self::built(size, vec![0.0; size.mechanisms], |priors, graph| {
            calls::build_dense_probabilities(
                size.checks,
                size.mechanisms,
                probabilities,
                matrix,
                calls::MadeLists { priors, graph },
            )
        })
    }

    /// The graph of a sparse model that is given by priors: as [`from_probabilities`](Self::from_probabilities), with a log ratio
    /// for each mechanism in the place of its probability.
    ///
    /// # Errors
    ///
    /// 1; then mechanism by mechanism 4, 5, 6: the prior, then each detector in its order, range before repeat.
    pub fn from_sparse<D: AsRef<[u32]>>(
        checks: usize,
        mechanisms: &[(f64, D)],
    ) -> Result<Self, Error> {
        let flat = Flat::of(mechanisms);
        Self::from_sparse_lists(checks, flat.numbers, &flat.offsets, &flat.detectors)
    }

    /// The graph of a sparse model that is given by priors, in flat lists: mechanism `m` has the detectors
    /// `detectors[detector_offsets[m]..detector_offsets[m + 1]]`. There are as many mechanisms as priors.
    ///
    /// ```
    /// use chowderkite::BpGraph;
    ///
    /// let flat = BpGraph::from_sparse_lists(2, vec![4.0; 3], &[0, 1, 3, 4], &[0, 0, 1, 1])?;
    /// let nested = BpGraph::from_sparse(2, &[(4.0, vec![0]), (4.0, vec![0, 1]), (4.0, vec![1])])?;
    /// assert_eq!(flat, nested);
    /// # Ok::<(), chowderkite::Error>(())
    /// ```
    ///
    /// # Errors
    ///
    /// 1, 2, 3; then mechanism by mechanism 4, 5, 6.
    pub fn from_sparse_lists(
        checks: usize,
        priors: Vec<f64>,
        detector_offsets: &[u32],
        detectors: &[u32],
    ) -> Result<Self, Error> {
        let size = Size {
            checks,
            mechanisms: priors.len(),
            edges: detectors.len(),
        };
        Self::built(size, priors, |priors, lists| {
            calls::build_sparse(
                size.checks,
                size.mechanisms,
                size.edges,
                priors,
                detector_offsets,
                detectors,
                lists,
            )
        })
    }

    /// The graph of a dense matrix and of priors. The matrix lies check by check: byte `c * mechanisms + m` is not 0 where
    /// mechanism `m` sets off check `c`. There are as many mechanisms as priors.
    ///
    /// # Errors
    ///
    /// 1 for the counts, 2 for the matrix, 1 for the edges, then 4.
    pub fn from_dense(checks: usize, priors: Vec<f64>, matrix: &[u8]) -> Result<Self, Error> {
        version::check();
        let size = Size {
            checks,
            mechanisms: priors.len(),
            edges: calls::count_edges(matrix),
        };
        Self::built(size, priors, |priors, lists| {
            calls::build_dense(size.checks, size.mechanisms, priors, matrix, lists)
        })
    }

    /// The graph of lists that were built before, by [`lists`](Self::lists) of another graph or out of a file. There are as
    /// many mechanisms as priors, and as many edges as check entries.
    ///
    /// ```
    /// use chowderkite::BpGraph;
    ///
    /// let graph = BpGraph::from_sparse(2, &[(4.0, vec![0]), (4.0, vec![0, 1]), (4.0, vec![1])])?;
    /// let other_priors = BpGraph::from_lists(2, vec![4.0, 3.5, 4.0], graph.lists().clone())?;
    /// assert_eq!(other_priors.lists(), graph.lists());
    /// # Ok::<(), chowderkite::Error>(())
    /// ```
    ///
    /// # Errors
    ///
    /// 1, 2, 4, 7.
    pub fn from_lists(checks: usize, priors: Vec<f64>, lists: GraphLists) -> Result<Self, Error> {
        let graph = Self {
            checks,
            mechanisms: priors.len(),
            edges: lists.check_var.len(),
            priors,
            lists,
        };
        version::check();
        Error::of_code(calls::check_graph(graph.lent()))?;
        Ok(graph)
    }

    /// The graph whose lists a call fills, and whose priors it reads or fills too. The lists have lengths that fit, but are empty
    /// where a size is above its limit, so that nothing huge is allocated for a call that refuses with 1 before it looks at a
    /// graph list.
    fn built(
        size: Size,
        mut priors: Vec<f64>,
        call: impl FnOnce(&mut [f64], calls::GraphLists) -> u64,
    ) -> Result<Self, Error> {
        let Size {
            checks,
            mechanisms,
            edges,
        } = size;
        let fits = checks <= MAX_CHECKS && mechanisms <= MAX_MECHANISMS && edges <= MAX_EDGES;
        let mut lists = if fits {
            lists::GraphLists::filled(size, 0)
        } else {
            lists::GraphLists::default()
        };
        version::check();
        Error::of_code(call(&mut priors, lists.written()))?;
        Ok(Self {
            checks,
            mechanisms,
            edges,
            priors,
            lists: GraphLists {
                check_var: lists.check_var,
                check_offset: lists.check_offset,
                var_check: lists.var_check,
                var_message: lists.var_message,
                var_offset: lists.var_offset,
            },
        })
    }

    pub(crate) const fn size(&self) -> Size {
        Size {
            checks: self.checks,
            mechanisms: self.mechanisms,
            edges: self.edges,
        }
    }

    /// As the calls are lent it.
    pub(crate) fn lent(&self) -> calls::Graph<'_> {
        let lists = &self.lists;
        calls::Graph {
            checks: self.checks,
            mechanisms: self.mechanisms,
            edges: self.edges,
            priors: &self.priors,
            check_var: &lists.check_var,
            check_offset: &lists.check_offset,
            var_check: &lists.var_check,
            var_message: &lists.var_message,
            var_offset: &lists.var_offset,
        }
    }

    /// Number of checks.
    #[must_use]
    pub const fn check_count(&self) -> usize {
        self.checks
    }

    /// Number of mechanisms.
    #[must_use]
    pub const fn mechanism_count(&self) -> usize {
        self.mechanisms
    }

    /// Number of edges: incidences of a check and a mechanism.
    #[must_use]
    pub const fn edge_count(&self) -> usize {
        self.edges
    }

    /// The priors, one log ratio for each mechanism, as they were handed in or made of probabilities.
    #[must_use]
    pub fn prior_llrs(&self) -> &[f64] {
        &self.priors
    }

    /// The lists of incidences.
    #[must_use]
    pub const fn lists(&self) -> &GraphLists {
        &self.lists
    }

    /// The checks that a mechanism sets off, rising.
    ///
    /// # Panics
    ///
    /// If there is no such mechanism.
    #[must_use]
    pub fn detectors(&self, mechanism: usize) -> &[u32] {
        &self.lists.var_check[part(&self.lists.var_offset, mechanism)]
    }

    /// The mechanisms that set off a check, rising.
    ///
    /// # Panics
    ///
    /// If there is no such check.
    #[must_use]
    pub fn mechanisms(&self, check: usize) -> &[u32] {
        &self.lists.check_var[part(&self.lists.check_offset, check)]
    }
}

/// A sparse model in flat lists: priors or probabilities, detector offsets and detectors.
struct Flat {
    numbers: Vec<f64>,
    offsets: Vec<u32>,
    detectors: Vec<u32>,
}

impl Flat {
    fn of<D: AsRef<[u32]>>(mechanisms: &[(f64, D)]) -> Self {
        let mut numbers = Vec::with_capacity(mechanisms.len());
        let mut offsets = Vec::with_capacity(mechanisms.len() + 1);
        let mut detectors = Vec::new();
        offsets.push(0);
        for (number, list) in mechanisms {
            numbers.push(*number);
            detectors.extend_from_slice(list.as_ref());
            // A length that does not fit is far above the limit of edges, which is refused before offsets are read.
            offsets.push(u32::try_from(detectors.len()).unwrap_or(u32::MAX));
        }
        Self {
            numbers,
            offsets,
            detectors,
        }
    }
}

fn part(offsets: &[u32], place: usize) -> Range<usize> {
    offsets[place] as usize..offsets[place + 1] as usize
}
