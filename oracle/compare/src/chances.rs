//! Random probabilities, and floats that are none. What is drawn depends on no logarithm or exponential of the machine's.

use crate::table::is_probability;
use oracle::splitmix::SplitMix64;

/// A way to draw a probability, with what the distances of those so drawn are counted under.
pub struct Sort {
    pub name: &'static str,
    pub draw: fn(&mut SplitMix64) -> f64,
}

pub const SORTS: [Sort; 7] = [
    Sort {
        name: "p uniform, prior less the Rust's, of 2^-32",
        draw: SplitMix64::unit,
    },
    Sort {
        name: "p up to 0.01, prior less the Rust's, of 2^-32",
        draw: |random| 0.01 * random.unit(),
    },
    Sort {
        name: "p log-uniform from 2^-60, prior less the Rust's, of 2^-32",
        draw: log_uniform,
    },
    Sort {
        name: "p near 1, prior less the Rust's, of 2^-32",
        draw: |random| 1.0 - log_uniform(random),
    },
    Sort {
        name: "p of any bits, prior less the Rust's, of 2^-32",
        draw: |random| between(random, 0.0, 1.0),
    },
    Sort {
        name: "p about the changes of the power of two, prior less the Rust's, of 2^-32",
        draw: at_a_change,
    },
    Sort {
        name: "p about the cut, prior less the Rust's, of 2^-32",
        draw: at_the_cut,
    },
];

/// One of the floats from `low` to `high`, each as likely as another.
fn between(random: &mut SplitMix64, low: f64, high: f64) -> f64 {
    let (low, high) = (low.to_bits(), high.to_bits());
    f64::from_bits(low + random.draw() % (high - low + 1))
}

fn log_uniform(random: &mut SplitMix64) -> f64 {
    const LEAST: f64 = 8.673_617_379_884_035e-19; // 2^-60
    between(random, LEAST, 1.0)
}

/// Some floats up or down, where that stays from 0 to 1.
fn near(random: &mut SplitMix64, p: f64) -> f64 {
    let moved = f64::from_bits((p.to_bits() + random.below(81) as u64).saturating_sub(40));
    if is_probability(moved) { moved } else { p }
}

/// About 2^-k, 1 / (1 + 2^k), or either taken from 1.
fn at_a_change(random: &mut SplitMix64) -> f64 {
    let power = f64::from_bits((1023 + random.below(54) as u64) << 52);
    let p = random.pick(&[1.0 / power, 1.0 / (1.0 + power)]);
    let p = if random.once_in(2) { p } else { 1.0 - p };
    near(random, p)
}

/// About 1 / (1 + e^30), where the logarithm is 30, or that taken from 1: within some 256 of 2^-32 of the prior.
fn at_the_cut(random: &mut SplitMix64) -> f64 {
    let p = 9.357_622_968_839_298e-14 * (1.0 + (random.unit() - 0.5) * 1.2e-7);
    if random.once_in(2) { p } else { 1.0 - p }
}

/// Probabilities at which a test turns.
const EDGES: [f64; 12] = [
    0.0,
    -0.0,
    1.0,
    0.5,
    5e-324,
    f64::MIN_POSITIVE,
    f64::EPSILON,
    1.0 - f64::EPSILON / 2.0,
    0.5 - f64::EPSILON / 4.0,
    0.5 + f64::EPSILON / 2.0,
    2.842_170_943_040_401e-14, // 2^-45
    9e-14,
];

/// Of any sort, or an edge.
pub fn any(random: &mut SplitMix64) -> f64 {
    match random.below(SORTS.len() + 1) {
        0 => random.pick(&EDGES),
        sort => (SORTS[sort - 1].draw)(random),
    }
}

/// As many for a model: like those of a lab, or of one sort, or of all.
pub fn of_model(random: &mut SplitMix64, mechanisms: usize) -> Vec<f64> {
    let draw: fn(&mut SplitMix64) -> f64 = match random.below(6) {
        0 | 1 => |random| 1e-3 + random.unit() * 0.199,
        2 => |random| 0.01 * random.unit(),
        3 => SplitMix64::unit,
        4 => log_uniform,
        _ => any,
    };
    let list: Vec<f64> = (0..mechanisms).map(|_| draw(random)).collect();
    match list.first() {
        // All alike, so that minima and weights tie.
        Some(&first) if random.once_in(5) => vec![first; mechanisms],
        _ => list,
    }
}

/// What is no probability.
pub fn none(random: &mut SplitMix64) -> f64 {
    const BAD: [f64; 10] = [
        f64::NAN,
        -f64::NAN,
        f64::INFINITY,
        f64::NEG_INFINITY,
        -5e-324,
        -0.25,
        -1.0,
        1.0 + f64::EPSILON,
        1.25,
        f64::MAX,
    ];
    let any = f64::from_bits(random.draw());
    if random.once_in(2) && !is_probability(any) {
        any
    } else {
        random.pick(&BAD)
    }
}
