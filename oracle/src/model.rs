//! Sparse models and how the random ones are made.

use crate::exact::drive;
use crate::line::Line;
use crate::splitmix::SplitMix64;
use pecos_decoder_core::dem::SparseDem;

#[derive(Clone, Debug)]
pub struct Model {
    pub checks: usize,
    pub probabilities: Vec<f64>,
    /// The detectors of each mechanism, in the order of its list.
    pub detectors: Vec<Vec<u32>>,
}

/// Probabilities at the edges of the Rust's cases: certain, even, saturated on both sides.
const EXTREME: [f64; 14] = [
    0.0,
    -0.0,
    1.0,
    0.5,
    5e-14,
    9e-14,
    9.4e-14,
    1e-300,
    5e-324,
    0.7,
    0.99,
    1.0 - 1e-15,
    1.0 - 1e-13,
    0.500_000_000_000_000_1,
];

impl Model {
    pub fn mechanisms(&self) -> usize {
        self.probabilities.len()
    }

    pub fn edges(&self) -> usize {
        self.detectors.iter().map(Vec::len).sum()
    }

    pub fn check_degrees(&self) -> Vec<usize> {
        let mut degrees = vec![0; self.checks];
        for &detector in self.detectors.iter().flatten() {
            degrees[detector as usize] += 1;
        }
        degrees
    }

    /// No check and no mechanism.
    pub fn nothing() -> Self {
        Self {
            checks: 0,
            probabilities: vec![],
            detectors: vec![],
        }
    }

    /// The reference's G: detectors {0}, {0,1}, {1}, priors 4.
    pub fn g() -> Self {
        Self {
            checks: 2,
            probabilities: vec![probability_of(4.0); 3],
            detectors: vec![vec![0], vec![0, 1], vec![1]],
        }
    }

    /// One check, one mechanism on it.
    pub fn single(probability: f64) -> Self {
        Self {
            checks: 1,
            probabilities: vec![probability],
            detectors: vec![vec![0]],
        }
    }

    /// The same model with its checks numbered anew: check `c` becomes `numbers[c]`.
    pub fn renumbered(&self, numbers: &[u32]) -> Self {
        let renumber = |list: &Vec<u32>| list.iter().map(|&c| numbers[c as usize]).collect();
        Self {
            checks: self.checks,
            probabilities: self.probabilities.clone(),
            detectors: self.detectors.iter().map(renumber).collect(),
        }
    }

    /// The parities that a set of mechanisms leaves on the checks.
    pub fn syndrome_of(&self, bits: &[bool]) -> Vec<u8> {
        parities(self.checks, self.detectors.iter().zip(bits))
    }

    /// As the Rust takes it.
    pub fn dem(&self) -> SparseDem {
        let mechanisms = self.probabilities.iter().zip(&self.detectors);
        SparseDem {
            mechanisms: mechanisms
                .map(|(&probability, detectors)| (probability, detectors.clone(), Vec::new()))
                .collect(),
            num_detectors: self.checks,
        }
    }

    /// Counts, priors, offsets and detectors, as the lists have them.
    pub fn write(&self, priors: &[f64], line: &mut Line) {
        write_sizes(self.checks, self.mechanisms(), self.edges(), line);
        line.floats(priors);
        write_detectors(&self.detectors, line);
    }
}

/// The parities that mechanisms leave on the checks: of each its detectors, and whether it happened.
pub fn parities<'a>(
    checks: usize,
    mechanisms: impl Iterator<Item = (&'a Vec<u32>, &'a bool)>,
) -> Vec<u8> {
    let mut parities = vec![0; checks];
    for (detectors, _) in mechanisms.filter(|(_, happened)| **happened) {
        for &detector in detectors {
            parities[detector as usize] ^= 1;
        }
    }
    parities
}

pub fn write_sizes(checks: usize, mechanisms: usize, edges: usize, line: &mut Line) {
    line.counts([&checks, &mechanisms, &edges]);
}

/// Where each mechanism's detectors start in the list of all, and where the last end.
pub fn offsets(detectors: &[Vec<u32>]) -> Vec<u32> {
    let mut offsets = vec![0];
    for list in detectors {
        offsets.push(offsets[offsets.len() - 1] + list.len() as u32);
    }
    offsets
}

pub fn write_detectors(detectors: &[Vec<u32>], line: &mut Line) {
    for offset in offsets(detectors) {
        line.number(u64::from(offset));
    }
    for &detector in detectors.iter().flatten() {
        line.number(u64::from(detector));
    }
}

/// A probability of which the Rust makes exactly this prior: the nearest to 1 / (1 + e^prior) that does.
pub fn find_probability(prior: f64) -> Option<f64> {
    let centre = (1.0 / (1.0 + prior.exp())).to_bits();
    (0..4096)
        .flat_map(|distance| [centre + distance, centre - distance])
        .map(f64::from_bits)
        .find(|&probability| drive::priors(&[probability])[0].to_bits() == prior.to_bits())
}

/// [`find_probability`], where there is one.
pub fn probability_of(prior: f64) -> f64 {
    find_probability(prior).unwrap_or_else(|| panic!("no probability has the prior {prior}"))
}

/// How the mechanisms of a random model lie on its checks.
#[derive(Clone, Copy)]
enum Shape {
    /// Mechanism m on the checks m - 1 and m, as in a repetition code.
    Chain,
    /// One to three checks each.
    Usual,
    /// None to all checks.
    Mixed,
    /// Mostly one check.
    Thin,
}

/// How many of the edges a mechanism has where they are shared out evenly.
pub fn even_degree(mechanism: usize, mechanisms: usize, edges: usize) -> usize {
    edges / mechanisms + usize::from(mechanism < edges % mechanisms)
}

pub fn random_model(random: &mut SplitMix64, most_checks: usize, most_mechanisms: usize) -> Model {
    let checks = match random.below(20) {
        0 => 0,
        1..=3 => random.below(3.min(most_checks) + 1),
        _ => random.between(1, most_checks),
    };
    let mechanisms = match random.below(20) {
        0 => 0,
        1 => 1,
        _ => random.between(1, most_mechanisms),
    };
    let shape = random.pick(&[
        Shape::Chain,
        Shape::Chain,
        Shape::Usual,
        Shape::Usual,
        Shape::Mixed,
        Shape::Thin,
    ]);
    // Now and then a check that no mechanism may touch.
    let spared = if random.once_in(3) && checks > 0 {
        Some(random.below(checks) as u32)
    } else {
        None
    };
    let detectors = (0..mechanisms)
        .map(|mechanism| {
            let mut list = detectors_of(random, shape, checks, mechanism);
            list.retain(|detector| Some(*detector) != spared);
            list
        })
        .collect();
    Model {
        checks,
        probabilities: random_probabilities(random, mechanisms),
        detectors,
    }
}

fn detectors_of(
    random: &mut SplitMix64,
    shape: Shape,
    checks: usize,
    mechanism: usize,
) -> Vec<u32> {
    if let Shape::Chain = shape {
        let near = [mechanism.wrapping_sub(1), mechanism];
        return near
            .into_iter()
            .filter(|&check| check < checks)
            .map(|check| check as u32)
            .collect();
    }
    let degree = match shape {
        Shape::Usual => random.between(1, 3),
        Shape::Mixed if random.once_in(8) => checks,
        Shape::Mixed => random.below(5),
        _ if random.once_in(4) => random.below(3),
        _ => 1,
    };
    let mut all: Vec<u32> = (0..checks as u32).collect();
    random.draw_front(&mut all, degree.min(checks));
    all.truncate(degree);
    // The Rust takes the detectors in any order; most lists are sorted.
    if !random.once_in(3) {
        all.sort_unstable();
    }
    all
}

fn random_probabilities(random: &mut SplitMix64, mechanisms: usize) -> Vec<f64> {
    let usual = |random: &mut SplitMix64| 1e-3 + random.unit() * 0.199;
    match random.below(5) {
        // All alike, so that minima and weights tie.
        0 => vec![random.pick(&[1e-3, 0.01, 0.1, 0.2, 0.5, 0.0, 1.0]); mechanisms],
        1 => (0..mechanisms).map(|_| random.pick(&EXTREME)).collect(),
        2 => (0..mechanisms)
            .map(|_| {
                if random.once_in(3) {
                    random.pick(&EXTREME)
                } else {
                    usual(random)
                }
            })
            .collect(),
        _ => (0..mechanisms).map(|_| usual(random)).collect(),
    }
}
