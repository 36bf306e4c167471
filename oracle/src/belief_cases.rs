//! The cases of min-sum beliefs.

use crate::answers::Refusal;
use crate::line::{Kind, Line};
use crate::model::{Model, probability_of, random_model};
use crate::splitmix::SplitMix64;

const SEED: u64 = 0x6265_6c69_6566_0002;
const USUAL: usize = 230;
const MOST_ITERATIONS: usize = 20;

/// Scales of every kind; min-sum tests none of them.
pub const SCALES: [f64; 22] = [
    1.0,
    0.5,
    0.9,
    0.625,
    2.0,
    -0.5,
    -1.0,
    -1.25,
    0.0,
    -0.0,
    10.0,
    1e100,
    1e300,
    -1e300,
    1e308,
    -1e308,
    f64::MAX,
    5e-324,
    1e-200,
    f64::INFINITY,
    f64::NEG_INFINITY,
    f64::NAN,
];

#[derive(Clone, Debug)]
pub struct BeliefCase {
    pub model: Model,
    pub syndrome: Vec<u8>,
    pub iterations: usize,
    pub scale: f64,
    pub serial: bool,
}

impl BeliefCase {
    pub fn line(&self, priors: &[f64], answer: &Result<Vec<f64>, Refusal>) -> String {
        let mut line = Line::of(Kind::Beliefs);
        self.model.write(priors, &mut line);
        line.count(self.syndrome.len());
        line.bytes(&self.syndrome);
        line.count(self.iterations);
        line.float(self.scale);
        line.count(usize::from(self.serial));
        line.answer(answer, |posterior, line| line.floats(posterior));
        // The Rust leaves its beliefs standing; the reference has the port zero them.
        if let Err(Refusal { code: 30, .. }) = answer {
            line.floats(&vec![0.0; priors.len()]);
        }
        line.finish()
    }
}

/// Every belief case thought of. Those in which a NaN's sign decides are taken out by `lists`.
pub fn candidates() -> Vec<BeliefCase> {
    let mut cases = fixed();
    let mut random = SplitMix64::new(SEED);
    // Each number of iterations with each scale, on one schedule or the other.
    for number in 0..SCALES.len() * (MOST_ITERATIONS + 1) {
        let most = [3, 6, 9, 14][random.below(4)];
        let model = random_model(&mut random, most, most);
        cases.push(BeliefCase {
            syndrome: random_syndrome(&mut random, model.checks),
            model,
            iterations: number % (MOST_ITERATIONS + 1),
            scale: SCALES[number % SCALES.len()],
            serial: random.once_in(2),
        });
    }
    for number in 0..USUAL {
        let most = [6, 10, 16, 24][number % 4];
        let model = random_model(&mut random, most, most * 3 / 2);
        cases.push(BeliefCase {
            syndrome: random_syndrome(&mut random, model.checks),
            model,
            iterations: random.between(1, MOST_ITERATIONS),
            scale: 0.3 + random.unit(),
            serial: number % 2 == 0,
        });
    }
    cases
}

pub fn random_syndrome(random: &mut SplitMix64, checks: usize) -> Vec<u8> {
    (0..checks)
        .map(|_| random.pick(&[0, 0, 0, 0, 1, 1, 2, 128, 255]))
        .collect()
}

fn fixed() -> Vec<BeliefCase> {
    let case = |model: Model, syndrome: Vec<u8>, iterations: usize, serial: bool| BeliefCase {
        model,
        syndrome,
        iterations,
        scale: 1.0,
        serial,
    };
    let mut cases = vec![
        case(Model::g(), vec![1, 0], 1, false),
        case(Model::g(), vec![1, 0], 1, true),
        case(Model::single(probability_of(2.0)), vec![1], 1, false),
        case(Model::g(), vec![1], 1, false),
        case(Model::g(), vec![1, 0, 0], 1, true),
        case(Model::nothing(), vec![], 3, false),
        case(Model::nothing(), vec![], 20, true),
    ];
    // Even odds: messages of zero, whose sign only the sent sign reads.
    for syndrome in [0, 1] {
        for serial in [false, true] {
            for second in [0.5, probability_of(2.0)] {
                let model = Model {
                    checks: 1,
                    probabilities: vec![0.5, second],
                    detectors: vec![vec![0], vec![0]],
                };
                cases.push(case(model, vec![syndrome], 3, serial));
            }
        }
    }
    cases.extend(nan_sign_decides());
    cases
}

/// The cases made for a NaN's sign, each of which it decides otherwise: a refusal's place, the bits of beliefs that are accepted, and
/// whether they are accepted.
pub fn nan_sign_decides() -> [BeliefCase; 3] {
    [
        nan_sign_decides_place(),
        nan_sign_decides_bits(),
        nan_sign_decides_acceptance(),
    ]
}

/// A refusal whose place hangs on a NaN's sign. In the first iteration check 0 sends mechanism 1
/// minus infinity, so its message back is infinity minus infinity. The sign read there decides in
/// the second whether mechanism 1's other messages stay minus infinity, whose sign counts in the
/// checks 1, 3 and 5, or become NaN, whose sign doesn't. So those checks either cancel or pile up
/// with 2, 4 and 6 at mechanism 0, which stays finite or not: place 1 or 0. Two mechanisms of their
/// own keep the messages of each of these six checks finite.
fn nan_sign_decides_place() -> BeliefCase {
    let one = probability_of(1.0);
    let mut probabilities = vec![one, one, 0.0];
    let mut detectors = vec![(1..7).collect(), vec![0, 1, 3, 5], vec![0]];
    for check in 1..7 {
        probabilities.extend([probability_of(1.75); 2]);
        detectors.extend([vec![check], vec![check]]);
    }
    BeliefCase {
        model: Model {
            checks: 7,
            probabilities,
            detectors,
        },
        syndrome: vec![1, 0, 0, 0, 0, 0, 0],
        iterations: 2,
        scale: 1e308,
        serial: true,
    }
}

/// A scale that drives messages to infinity, and differences of them to NaN.
const OVERFLOWING: f64 = 1.5e308;

/// Accepted with either sign; the belief of mechanism 4, which is on every check, has other bits. Found by a search.
fn nan_sign_decides_bits() -> BeliefCase {
    BeliefCase {
        model: Model {
            checks: 4,
            probabilities: vec![0.25, 0.25, 0.25, 0.25, 0.25, 0.75, 0.75, 0.4, 0.75],
            detectors: vec![
                vec![0],
                vec![3],
                vec![1],
                vec![0],
                vec![0, 1, 2, 3],
                vec![1],
                vec![2],
                vec![2],
                vec![3],
            ],
        },
        syndrome: vec![0, 0, 1, 0],
        iterations: 2,
        scale: OVERFLOWING,
        serial: true,
    }
}

/// Accepted with a positive sign; with a negative one refused at mechanism 7, which is on every check. Found by a search.
fn nan_sign_decides_acceptance() -> BeliefCase {
    let mut probabilities = vec![probability_of(1.0); 12];
    // No probability has the prior -1: this one comes within a bit of it.
    probabilities[2] = 0.731_058_578_630_004_9;
    probabilities[6] = 0.731_058_578_630_004_9;
    BeliefCase {
        model: Model {
            checks: 5,
            probabilities,
            detectors: vec![
                vec![0],
                vec![4],
                vec![0],
                vec![3],
                vec![2],
                vec![1, 3],
                vec![2],
                vec![0, 1, 2, 3, 4],
                vec![3],
                vec![1],
                vec![4],
                vec![1],
            ],
        },
        syndrome: vec![0, 0, 0, 1, 0],
        iterations: 2,
        scale: OVERFLOWING,
        serial: true,
    }
}
