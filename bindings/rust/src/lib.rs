//! A decoder for quantum error correction whose result is a function of its key: the model, the settings, the syndrome and the
//! shot's seed, which is its number unless an older [`DrawRule`] is named.
//!
//! Min-sum beliefs and Relay-BP, in the shape of PECOS's `pecos-bp`, over code that is proved equal to one definition over IEEE
//! 754 binary64, bit for bit, on every input. This crate makes lists that fit, calls the proved code, and passes on what it
//! answers: it computes and refuses nothing itself. Plain Rust, tested and not proved, are this passing on, how [`RelayState`]
//! starts a leg, how [`GammaSource::drawn`] repeats a shot's draws, how [`RelayOutcome::audit`] reads a record, and how [`Shots`]
//! gathers lines.
//!
//! The reference, docs/REFERENCE.md, decides behaviour; the numbers below are its refusals.
//!
//! Before its first call the crate asks the archive that is linked for the version of its calls. It panics if that is not the one
//! that `chowderkite-sys` declares.
//!
//! # Quick start
//!
//! Two checks and three mechanisms, which set off the checks {0}, {0, 1} and {1}, each with its probability:
//!
//! ```
//! use chowderkite::{BpGraph, RelayBp, RelayConfig};
//!
//! let graph = BpGraph::from_probabilities(2, &[(0.01, vec![0]), (0.02, vec![0, 1]), (0.01, vec![1])])?;
//! let prior = graph.prior_llrs()[0]; // 4.595, which is ln(99)
//! let config = RelayConfig {
//!     gamma0: 0.0,
//!     pre_iterations: 2,
//!     num_legs: 0,
//!     ..RelayConfig::default()
//! };
//! let mut decoder = RelayBp::new(graph, config)?;
//! let outcome = decoder.decode(&[1, 0], 7)?;
//! assert!(outcome.converged);
//! assert_eq!(outcome.correction, [1, 0, 0]);
//! assert_eq!(outcome.weight, Some(prior));
//! assert_eq!(outcome.total_iterations, 2);
//! assert_eq!(outcome.stores, 16); // each iteration wrote a message both ways along each of four edges
//! # Ok::<(), chowderkite::Error>(())
//! ```
//!
//! # Priors
//!
//! A decode reckons with priors: a mechanism's is the log ratio `ln((1 - p) / p)` of its probability `p`, cut to -30 and 30. Give
//! probabilities, and the archive makes the priors: [`BpGraph::from_probabilities`], [`BpGraph::from_probability_lists`] and
//! [`BpGraph::from_dense_probabilities`] take them, [`BpGraph::prior_llrs`] has what became of them, and [`prior_of`] and
//! [`priors_of`] make priors without a graph.
//!
//! `ln` is no IEEE 754 operation, so its last bits depend on the library that takes it, and a result must not. So the archive
//! takes none: it works the prior out in whole numbers of 2^-32, by one definition that [`prior_of`] tells, and a probability has
//! the same prior on every machine, bit for bit. A result's key may hold either, the prior or the probability: a probability
//! has one prior, and a prior one result.
//!
//! Who has log ratios hands them in: [`BpGraph::from_sparse`], [`BpGraph::from_sparse_lists`], [`BpGraph::from_dense`]. They are
//! taken as they are, so the key holds the log ratio then, and not the probability that some `ln` made it of. A model of
//! `pecos-bp` keeps its results to the last bit by the log ratios that `pecos-bp` has, for they are its library's `ln`:
//!
//! ```
//! use chowderkite::{prior_of, BpGraph};
//!
//! let theirs = ((1.0 - 0.01) / 0.01_f64).ln().clamp(-30.0, 30.0);
//! let graph = BpGraph::from_sparse(1, &[(theirs, vec![0])])?;
//! assert_eq!(graph.prior_llrs(), [theirs]);
//! assert!((theirs - prior_of(0.01)?.value).abs() < 1e-7);
//! # Ok::<(), chowderkite::Error>(())
//! ```
//!
//! # Refusals
//!
//! A bad input is answered by an [`Error`]: one number and, where the refusal has one, one place. Each call lists the numbers
//! that it can give. Lists that were lent to a refused call are as they were, but for 30, which leaves zeroes in results.
//!
//! # Auditing a filed record
//!
//! It is proved of every decode what its record says of itself: that the correction is the one of least weight among the legs that
//! converged, of the earlier one on ties, and has the parities of the syndrome; that weights are the sums over their corrections,
//! and the total that of the iterations. [`RelayOutcome::audit`] holds a record to that, which was filed with its model and its
//! syndrome, and tells the first line that does not hold. It needs no settings and no seed, and decodes nothing.
//!
//! # Coming from `pecos-bp`
//!
//! | There | Here |
//! |---|---|
//! | `BpGraph::from_sparse_dem`, `from_dcm` | [`BpGraph::from_probabilities`], [`BpGraph::from_dense_probabilities`] |
//! | priors by the library's `ln` | by a fixed definition, some 2^-32 nearer to 0; [`BpGraph::from_sparse`], [`BpGraph::from_dense`] take log ratios |
//! | `min_sum_bp_into` | [`min_sum_into`], and [`min_sum()`], which allocates |
//! | `RelayConfig::explicit_gammas` | [`GammaSource::Explicit`], flat, in [`RelayConfig::gamma_source`] |
//! | gammas drawn by PECOS's generator | SplitMix64, by a [`DrawRule`]: other gammas for the same seed; [`GammaSource::drawn`] hands them out |
//! | a seed for each decode | a shot number, below 2^48, unless [`DrawRule::SeedXorLeg`] is named |
//! | `RelayOutcome::legs` has executed legs | it has all; the first [`RelayOutcome::executed_legs`] were executed |
//! | messages are not counted | [`RelayOutcome::stores`] |
//! | check messages have no limit | [`RelayConfig::clip`], off unless it is said |
//! | sizes up to `u32` | [`MAX_CHECKS`], [`MAX_MECHANISMS`], [`MAX_EDGES`], [`MAX_COUNT`] |
//! | checks in index order | [`RelayBp::decode_in_order`] and [`iteration()`] take others |
//!
//! # Record streams
//!
//! [`Shots`] reads a stream of models, settings and shots, as the program `shots` does, and hands out the lines. 40 to 45 are the
//! refusals of streams; they end a run, and are said in its last line.
//!
//! # Threads, stack and floats
//!
//! There is no shared state. A decoder works in one thread at a time; clone it for others. A decode takes 260 KiB of stack on
//! x86-64, whatever the model, and [`Shots::feed`] 294 KiB; a Rust thread has 2 MiB unless told otherwise. The processor must round to nearest even and must
//! not flush subnormals to zero, as a program starts; C code in the same thread can change that.

#![deny(missing_docs)]
#![forbid(unsafe_code)]

mod audit;
mod draw;
mod error;
mod graph;
mod iteration;
mod min_sum;
mod prior;
mod relay;
mod shots;
mod version;

pub use audit::Broken;
pub use error::{Error, Refusal};
pub use graph::{BpGraph, GraphLists};
pub use iteration::{iteration, RelayState};
pub use min_sum::{min_sum, min_sum_into, BpScratch};
pub use prior::{prior_of, priors_of, Prior, Priors};
pub use relay::{DrawRule, GammaSource, LegOutcome, RelayBp, RelayConfig, RelayOutcome, Schedule};
pub use shots::Shots;

// The README's example is a test too.
#[cfg(doctest)]
#[doc = include_str!("../README.md")]
struct Readme;

/// The limit of checks.
pub const MAX_CHECKS: usize = 65_536;
/// The limit of mechanisms.
pub const MAX_MECHANISMS: usize = 65_536;
/// The limit of edges.
pub const MAX_EDGES: usize = 1_048_576;
/// The limit of relayed legs, of each count of iterations, and of explicit sets.
pub const MAX_COUNT: usize = 65_535;
