//! The cases of graph building, sparse and dense, those that the Rust refuses among them.

use crate::answers::{GraphLists, Refusal};
use crate::line::{Kind, Line};
use crate::model::{Model, random_model, write_detectors, write_sizes};
use crate::splitmix::SplitMix64;

const SEED: u64 = 0x6772_6170_6873_0001;
const RANDOM_PAIRS: usize = 130;
const RANDOM_REFUSED: usize = 50;

#[derive(Clone, Debug)]
pub enum Incidence {
    /// The detectors of each mechanism.
    Sparse(Vec<Vec<u32>>),
    /// A byte for each check and mechanism, check by check.
    Dense(Vec<u8>),
}

#[derive(Clone, Debug)]
pub struct GraphCase {
    pub checks: usize,
    pub probabilities: Vec<f64>,
    pub incidence: Incidence,
}

impl GraphCase {
    pub fn sparse(model: Model) -> Self {
        Self {
            checks: model.checks,
            probabilities: model.probabilities,
            incidence: Incidence::Sparse(model.detectors),
        }
    }

    /// The same incidences as a matrix, with nonzero bytes of several values.
    pub fn dense(model: &Model, random: &mut SplitMix64) -> Self {
        let mechanisms = model.mechanisms();
        let mut matrix = vec![0; model.checks * mechanisms];
        for (mechanism, detectors) in model.detectors.iter().enumerate() {
            for &detector in detectors {
                let value = random.pick(&[1, 1, 1, 2, 127, 128, 254, 255]);
                matrix[detector as usize * mechanisms + mechanism] = value;
            }
        }
        Self {
            checks: model.checks,
            probabilities: model.probabilities.clone(),
            incidence: Incidence::Dense(matrix),
        }
    }

    pub fn edges(&self) -> usize {
        match &self.incidence {
            Incidence::Sparse(detectors) => detectors.iter().map(Vec::len).sum(),
            Incidence::Dense(matrix) => matrix.iter().filter(|byte| **byte != 0).count(),
        }
    }

    pub fn is_dense(&self) -> bool {
        matches!(self.incidence, Incidence::Dense(_))
    }

    pub fn line(&self, priors: &[f64], answer: &Result<GraphLists, Refusal>) -> String {
        let mut line = Line::of(match self.incidence {
            Incidence::Sparse(_) => Kind::SparseGraph,
            Incidence::Dense(_) => Kind::DenseGraph,
        });
        write_sizes(self.checks, priors.len(), self.edges(), &mut line);
        line.floats(priors);
        match &self.incidence {
            Incidence::Sparse(detectors) => write_detectors(detectors, &mut line),
            Incidence::Dense(matrix) => line.bytes(matrix),
        }
        line.answer(answer, GraphLists::write);
        line.finish()
    }
}

/// Every graph case. A sparse case that builds is followed by the dense case of the same incidences.
pub fn cases() -> Vec<GraphCase> {
    let mut cases = Vec::new();
    let pair = |model: Model, random: &mut SplitMix64, cases: &mut Vec<GraphCase>| {
        let dense = GraphCase::dense(&model, random);
        cases.push(GraphCase::sparse(model));
        cases.push(dense);
    };
    let mut random = SplitMix64::new(SEED);
    for model in fixed_models() {
        pair(model, &mut random, &mut cases);
    }
    for number in 0..RANDOM_PAIRS {
        let most = [3, 6, 10, 16, 40][number % 5];
        let model = random_model(&mut random, most, most * 3 / 2);
        pair(model, &mut random, &mut cases);
    }
    for detectors in fixed_refused() {
        cases.push(GraphCase::sparse(Model {
            checks: 3,
            probabilities: vec![0.1; detectors.len()],
            detectors,
        }));
    }
    for _ in 0..RANDOM_REFUSED {
        cases.push(GraphCase::sparse(random_refused(&mut random)));
    }
    cases
}

fn fixed_models() -> Vec<Model> {
    let model = |checks: usize, detectors: Vec<Vec<u32>>| Model {
        checks,
        probabilities: vec![0.01; detectors.len()],
        detectors,
    };
    vec![
        Model::g(),
        Model::single(0.1),
        model(0, vec![]),
        model(0, vec![vec![], vec![], vec![]]),
        model(4, vec![]),
        model(1, vec![vec![]]),
        model(3, vec![vec![2], vec![], vec![0]]),
        model(3, vec![vec![2, 1, 0], vec![1, 2], vec![0, 2, 1]]),
        model(5, vec![(0..5).collect(); 5]),
        model(1, vec![vec![0]; 40]),
        model(40, vec![(0..40).rev().collect()]),
        model(48, (0..48).map(|check| vec![47 - check]).collect()),
    ]
}

/// Models on three checks that are refused: range before repeat, the first detector of the first
/// mechanism first.
fn fixed_refused() -> Vec<Vec<Vec<u32>>> {
    vec![
        vec![vec![3]],
        vec![vec![u32::MAX]],
        vec![vec![0, 0]],
        vec![vec![3, 3]],
        vec![vec![0, 3, 0]],
        vec![vec![0, 0, 3]],
        vec![vec![0, 1, 2, 1]],
        vec![vec![0], vec![0], vec![1, 2, 3]],
        vec![vec![0], vec![1, 1], vec![3]],
        vec![vec![0], vec![3], vec![1, 1]],
        vec![vec![], vec![], vec![2, 0, 2]],
    ]
}

fn random_refused(random: &mut SplitMix64) -> Model {
    let mut model = random_model(random, 8, 10);
    if model.detectors.is_empty() {
        model.detectors.push(Vec::new());
        model.probabilities.push(0.25);
    }
    for _ in 0..random.between(1, 2) {
        let mechanism = random.below(model.detectors.len());
        let list = &mut model.detectors[mechanism];
        let wrong = if random.once_in(2) && !list.is_empty() {
            random.pick(list)
        } else {
            model.checks as u32 + random.pick(&[0, 1, 7, 1 << 16, 1 << 31])
        };
        let place = random.between(0, list.len());
        list.insert(place, wrong);
    }
    model
}
