//! Models, settings and comparisons that the tests share.
#![allow(dead_code)] // each test file uses some

use chowderkite::{
    BpGraph, DrawRule, GammaSource, LegOutcome, RelayConfig, RelayOutcome, Schedule,
};
use chowderkite_sys::calls;

/// The reference's G: 2 checks; detectors {0}, {0,1}, {1}; priors 4.
pub fn model_g() -> BpGraph {
    BpGraph::from_sparse(2, &[(4.0, vec![0]), (4.0, vec![0, 1]), (4.0, vec![1])]).unwrap()
}

/// A graph, as the calls take it.
pub fn lent(graph: &BpGraph) -> calls::Graph<'_> {
    let lists = graph.lists();
    calls::Graph {
        checks: graph.check_count(),
        mechanisms: graph.mechanism_count(),
        edges: graph.edge_count(),
        priors: graph.prior_llrs(),
        check_var: &lists.check_var,
        check_offset: &lists.check_offset,
        var_check: &lists.var_check,
        var_message: &lists.var_message,
        var_offset: &lists.var_offset,
    }
}

/// The settings of the reference's runs: alpha 1, gamma0 0, no relayed legs.
pub fn plain(schedule: Schedule, pre_iterations: usize) -> RelayConfig {
    RelayConfig {
        schedule,
        alpha: 1.0,
        clip: None,
        gamma0: 0.0,
        pre_iterations,
        num_legs: 0,
        leg_iterations: 0,
        gamma_range: (0.0, 0.0),
        stop_after_converged: 1,
        gamma_source: GammaSource::Seeded(DrawRule::ByShot),
    }
}

/// Clips that 9 refuses.
pub const BAD_CLIPS: [f64; 9] = [
    f64::NAN,
    -f64::NAN,
    f64::INFINITY,
    f64::NEG_INFINITY,
    0.0,
    -0.0,
    -1.0,
    -5e-324,
    f64::MIN,
];

/// Floats by their bits, so that a zero's sign counts.
pub fn bits(floats: &[f64]) -> Vec<u64> {
    floats.iter().map(|float| float.to_bits()).collect()
}

/// All that an outcome says, bit for bit.
pub fn outcome_bits(outcome: &RelayOutcome) -> Vec<u64> {
    let mut all = vec![
        u64::from(outcome.converged),
        outcome.executed_legs as u64,
        outcome.total_iterations as u64,
        outcome.stores,
        outcome.weight.map_or(u64::MAX, f64::to_bits),
        outcome.legs.len() as u64,
    ];
    all.extend(outcome.correction.iter().map(|&bit| u64::from(bit)));
    all.extend(bits(&outcome.posterior));
    for leg in &outcome.legs {
        match leg {
            LegOutcome::Converged {
                weight,
                iterations,
                correction,
            } => {
                all.extend([2, weight.to_bits(), *iterations as u64]);
                all.extend(correction.iter().map(|&bit| u64::from(bit)));
            }
            LegOutcome::RanOut { iterations } => all.extend([1, *iterations as u64]),
            LegOutcome::NotExecuted => all.push(0),
        }
    }
    all
}

/// The messages that so many iterations write, by the formula.
pub fn stores_at(graph: &BpGraph, schedule: Schedule, iterations: usize) -> u128 {
    let degrees = (0..graph.mechanism_count()).map(|m| graph.detectors(m).len() as u128);
    let edges = graph.edge_count() as u128;
    let each = match schedule {
        Schedule::Flooding => 2 * edges,
        Schedule::CheckSerial => edges + degrees.map(|degree| degree * degree).sum::<u128>(),
    };
    iterations as u128 * each
}

/// Random numbers for models and shots.
pub struct Random(u64);

impl Random {
    pub const fn new(seed: u64) -> Self {
        Self(seed)
    }

    pub fn draw(&mut self) -> u64 {
        // xorshift64: plain, and not the decoder's generator
        self.0 ^= self.0 << 13;
        self.0 ^= self.0 >> 7;
        self.0 ^= self.0 << 17;
        self.0
    }

    /// A shot number.
    pub fn shot(&mut self) -> u64 {
        self.draw() >> 16
    }

    pub fn below(&mut self, limit: usize) -> usize {
        (self.draw() % limit as u64) as usize
    }

    pub fn permutation(&mut self, length: usize) -> Vec<u32> {
        let mut order: Vec<u32> = (0..length as u32).collect();
        for place in (1..length).rev() {
            order.swap(place, self.below(place + 1));
        }
        order
    }

    /// Mechanisms of up to three neighbouring checks, with priors from 1 to 5.
    pub fn model(&mut self, checks: usize, mechanisms: usize) -> BpGraph {
        let model: Vec<(f64, Vec<u32>)> = (0..mechanisms)
            .map(|_| {
                let first = self.below(checks);
                let detectors = (first..checks).take(1 + self.below(3));
                let prior = 1.0 + self.below(4096) as f64 / 1024.0;
                (prior, detectors.map(|check| check as u32).collect())
            })
            .collect();
        BpGraph::from_sparse(checks, &model).unwrap()
    }

    /// The syndrome of some random mechanisms.
    pub fn syndrome(&mut self, graph: &BpGraph, happened: usize) -> Vec<u8> {
        let mut syndrome = vec![0; graph.check_count()];
        for _ in 0..happened {
            for &check in graph.detectors(self.below(graph.mechanism_count())) {
                syndrome[check as usize] ^= 1;
            }
        }
        syndrome
    }
}
