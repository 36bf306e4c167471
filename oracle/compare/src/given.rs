//! All that the building calls take, and what the Rust answers to it.

use oracle::answers::GraphLists;
use oracle::exact::drive;
use oracle::graph_cases::{GraphCase, Incidence};
use oracle::model::{Model, even_degree, offsets};
use oracle::splitmix::SplitMix64;
use proved::{Answer, Beliefs, Decode, Iteration, Lists, Run, Settings, Shot, Size, Step};

/// The Rust's lists, as the port has them.
fn narrow(lists: &GraphLists) -> Lists {
    let list = |from: &[usize]| from.iter().map(|&number| number as u32).collect();
    Lists {
        check_var: list(&lists.check_var),
        check_offset: list(&lists.check_offset),
        var_check: list(&lists.var_check),
        var_message: list(&lists.var_message),
        var_offset: list(&lists.var_offset),
    }
}

/// The Rust's answer and lists for a case.
pub fn rust(case: &GraphCase) -> Result<Lists, (u64, u64)> {
    match drive::graph(case) {
        Ok(lists) => Ok(narrow(&lists)),
        Err(refusal) => Err(refusal.pair()),
    }
}

/// All that the building calls take. A sparse model has offsets and detectors, a dense one a matrix.
#[derive(Clone, Debug)]
pub struct Given {
    pub size: Size,
    /// For the Rust, beside the priors: one that is no probability stands where a prior is a bad one.
    pub probabilities: Vec<f64>,
    pub priors: Vec<f64>,
    pub offsets: Vec<u32>,
    pub detectors: Vec<u32>,
    pub matrix: Vec<u8>,
    pub lists: Lists,
}

impl Given {
    /// The case, with lists that fit and hold something else before the call.
    pub fn of(case: &GraphCase, random: &mut SplitMix64) -> Self {
        let size = Size {
            checks: case.checks,
            mechanisms: case.probabilities.len(),
            edges: case.edges(),
        };
        let mut given = Self {
            size,
            probabilities: case.probabilities.clone(),
            priors: drive::priors(&case.probabilities),
            offsets: vec![0],
            detectors: Vec::new(),
            matrix: Vec::new(),
            lists: Lists::filled(size, random.draw() as u32),
        };
        match &case.incidence {
            Incidence::Sparse(detectors) => {
                given.offsets = offsets(detectors);
                given.detectors = detectors.concat();
            }
            Incidence::Dense(matrix) => given.matrix.clone_from(matrix),
        }
        given
    }

    /// The model with its graph, and what the building call answered.
    pub fn built(model: &Model, random: &mut SplitMix64) -> (Self, Answer) {
        let mut given = Self::of(&GraphCase::sparse(model.clone()), random);
        let answer = given.build_sparse();
        (given, answer)
    }

    pub fn build_sparse(&mut self) -> Answer {
        proved::build_sparse(
            self.size,
            &self.priors,
            &self.offsets,
            &self.detectors,
            &mut self.lists,
        )
    }

    pub fn build_dense(&mut self) -> Answer {
        let Size {
            checks, mechanisms, ..
        } = self.size;
        proved::build_dense(
            checks,
            mechanisms,
            &self.priors,
            &self.matrix,
            &mut self.lists,
        )
    }

    pub fn check_graph(&self) -> Answer {
        proved::check_graph(self.size, &self.priors, &self.lists)
    }

    pub fn beliefs(&self, run: Run, lists: &mut Beliefs) -> Answer {
        proved::beliefs(self.size, &self.priors, &self.lists, run, lists)
    }

    pub fn iteration(&self, iteration: Iteration, step: &mut Step) -> Answer {
        proved::iteration(self.size, &self.priors, &self.lists, iteration, step)
    }

    pub fn decode(&self, settings: Settings, shot: Shot, left: &mut Decode) -> Answer {
        proved::decode(self.size, &self.priors, &self.lists, settings, shot, left)
    }

    /// The sparse model as the Rust takes it, where the offsets are good ones.
    pub fn nested(&self) -> GraphCase {
        let part = |pair: &[u32]| self.detectors[pair[0] as usize..pair[1] as usize].to_vec();
        GraphCase {
            checks: self.size.checks,
            probabilities: self.probabilities.clone(),
            incidence: Incidence::Sparse(self.offsets.windows(2).map(part).collect()),
        }
    }
}

/// A model of these sizes: the edges shared out evenly, each mechanism's detectors drawn and in no order.
pub fn model_of(size: Size, random: &mut SplitMix64) -> Model {
    let Size {
        checks,
        mechanisms,
        edges,
    } = size;
    let mut all: Vec<u32> = (0..checks as u32).collect();
    let detectors = (0..mechanisms).map(|mechanism| {
        let degree = even_degree(mechanism, mechanisms, edges);
        // The first places of a list that is shuffled on from mechanism to mechanism.
        random.draw_front(&mut all, degree);
        all[..degree].to_vec()
    });
    Model {
        checks,
        detectors: detectors.collect(),
        probabilities: (0..mechanisms).map(|_| random.unit()).collect(),
    }
}
