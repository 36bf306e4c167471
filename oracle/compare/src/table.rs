//! What the reference's table says of models and graph lists, in the order of its tests, and the tests that several calls over them
//! have. Written from the table and apart from the proved code.

use crate::given::{Given, rust};
use oracle::graph_cases::{GraphCase, Incidence};
use oracle::stores;
use proved::{Answer, Clip, Lists, Settings, Size, Source};
use std::collections::BTreeSet;

pub const MOST_COUNT: usize = 65_536;
pub const MOST_EDGES: usize = 1_048_576;
/// Of iterations, of relayed legs and of explicit sets.
pub const MOST_TURNS: usize = 65_535;

const NOWHERE: u64 = 0;

/// A test of the table: its number, without a place, where it fails.
pub fn test(good: bool, number: u64) -> Answer {
    if good { Ok(()) } else { Err((number, NOWHERE)) }
}

fn size_fits(size: Size) -> bool {
    size.checks <= MOST_COUNT && size.mechanisms <= MOST_COUNT && size.edges <= MOST_EDGES
}

fn lists_fit(lists: &Lists, edges: usize, size: Size) -> bool {
    let entries = [&lists.check_var, &lists.var_check, &lists.var_message];
    entries.iter().all(|list| list.len() == edges)
        && lists.check_offset.len() == size.checks + 1
        && lists.var_offset.len() == size.mechanisms + 1
}

fn is_prior(prior: f64) -> bool {
    (-30.0..=30.0).contains(&prior)
}

pub fn is_probability(probability: f64) -> bool {
    (0.0..=1.0).contains(&probability)
}

/// What a model gives for each mechanism, priors or probabilities.
struct Numbers<'a> {
    list: &'a [f64],
    good: fn(f64) -> bool,
    /// The refusal of one that is not good.
    number: u64,
    /// Whether the list of priors fits, where one is written.
    fits: bool,
}

impl<'a> Numbers<'a> {
    fn priors(given: &'a Given) -> Self {
        Self {
            list: &given.priors,
            good: is_prior,
            number: 4,
            fits: true,
        }
    }

    fn probabilities(given: &'a Given) -> Self {
        Self {
            list: &given.probabilities,
            good: is_probability,
            number: 8,
            fits: given.priors.len() == given.size.mechanisms,
        }
    }

    fn wanted(&self) -> Answer {
        match self.list.iter().position(|&one| !(self.good)(one)) {
            Some(mechanism) => Err((self.number, mechanism as u64)),
            None => Ok(()),
        }
    }
}

pub fn wanted_sparse(given: &Given) -> Answer {
    sparse(given, &Numbers::priors(given))
}

/// The same of a model that is given by probabilities, whose priors are written.
pub fn wanted_sparse_probabilities(given: &Given) -> Answer {
    sparse(given, &Numbers::probabilities(given))
}

fn sparse(given: &Given, numbers: &Numbers) -> Answer {
    let size = given.size;
    test(size_fits(size), 1)?;
    test(
        numbers.list.len() == size.mechanisms
            && numbers.fits
            && given.offsets.len() == size.mechanisms + 1
            && given.detectors.len() == size.edges
            && lists_fit(&given.lists, size.edges, size),
        2,
    )?;
    let ends = (given.offsets[0], given.offsets[size.mechanisms] as usize);
    test(
        ends == (0, given.detectors.len()) && given.offsets.is_sorted(),
        3,
    )?;
    for mechanism in 0..size.mechanisms {
        let place = mechanism as u64;
        if !(numbers.good)(numbers.list[mechanism]) {
            return Err((numbers.number, place));
        }
        let mut seen = BTreeSet::new();
        let part = given.offsets[mechanism] as usize..given.offsets[mechanism + 1] as usize;
        for &detector in &given.detectors[part] {
            if detector as usize >= size.checks {
                return Err((5, place));
            }
            if !seen.insert(detector) {
                return Err((6, place));
            }
        }
    }
    Ok(())
}

pub fn wanted_dense(given: &Given) -> Answer {
    dense(given, &Numbers::priors(given))
}

/// The same of a model that is given by probabilities, whose priors are written.
pub fn wanted_dense_probabilities(given: &Given) -> Answer {
    dense(given, &Numbers::probabilities(given))
}

fn dense(given: &Given, numbers: &Numbers) -> Answer {
    let size = given.size;
    test(
        size.checks <= MOST_COUNT && size.mechanisms <= MOST_COUNT,
        1,
    )?;
    test(
        given.matrix.len() == size.checks * size.mechanisms
            && numbers.list.len() == size.mechanisms,
        2,
    )?;
    let edges = given.matrix.iter().filter(|byte| **byte != 0).count();
    test(edges <= MOST_EDGES, 1)?;
    test(numbers.fits && lists_fit(&given.lists, edges, size), 2)?;
    numbers.wanted()
}

/// Of `priors_of`, by its probabilities and the lengths of its two results.
pub fn wanted_priors(probabilities: &[f64], priors: usize, scaled: usize) -> Answer {
    let length = probabilities.len();
    test(priors == length && scaled == length, 2)?;
    match probabilities.iter().position(|p| !is_probability(*p)) {
        Some(mechanism) => Err((8, mechanism as u64)),
        None => Ok(()),
    }
}

/// 7 unless the lists are those that the Rust builds of the incidences that the check lists tell.
pub fn wanted_lists(given: &Given) -> Answer {
    let size = given.size;
    test(size_fits(size), 1)?;
    test(
        given.priors.len() == size.mechanisms && lists_fit(&given.lists, size.edges, size),
        2,
    )?;
    Numbers::priors(given).wanted()?;
    let built = told(size, &given.lists).map(|case| rust(&case));
    test(built == Some(Ok(given.lists.clone())), 7)
}

/// The model of the incidences in the check lists, where they tell any.
fn told(size: Size, lists: &Lists) -> Option<GraphCase> {
    let offsets = &lists.check_offset;
    if offsets[0] != 0 || offsets[size.checks] as usize != size.edges || !offsets.is_sorted() {
        return None;
    }
    let mut detectors = vec![Vec::new(); size.mechanisms];
    for check in 0..size.checks {
        for &mechanism in &lists.check_var[offsets[check] as usize..offsets[check + 1] as usize] {
            detectors.get_mut(mechanism as usize)?.push(check as u32);
        }
    }
    Some(GraphCase {
        checks: size.checks,
        probabilities: vec![0.25; size.mechanisms],
        incidence: Incidence::Sparse(detectors),
    })
}

/// 1, of the mechanisms alone.
pub fn wanted_mechanisms(mechanisms: usize) -> Answer {
    test(mechanisms <= MOST_COUNT, 1)
}

/// 9: a clip that is on.
pub fn wanted_clip(clip: Clip) -> Answer {
    test(
        clip.on == 0 || clip.magnitude.is_finite() && clip.magnitude > 0.0,
        9,
    )
}

pub fn wanted_alpha(alpha: f64) -> Answer {
    test(alpha.is_finite() && alpha > 0.0, 10)
}

/// 20 and 21.
pub fn wanted_syndrome(syndrome: &[u8], checks: usize) -> Answer {
    test(syndrome.len() == checks, 20)?;
    match syndrome.iter().position(|&byte| byte > 1) {
        Some(check) => Err((21, check as u64)),
        None => Ok(()),
    }
}

/// 22: of lists that have a number for each mechanism, and for each edge.
pub fn wanted_lengths(size: Size, by_mechanism: &[&[f64]], by_edge: &[&[f64]]) -> Answer {
    let fit = |lists: &[&[f64]], length| lists.iter().all(|list| list.len() == length);
    test(
        fit(by_mechanism, size.mechanisms) && fit(by_edge, size.edges),
        22,
    )
}

/// 23: as many as there are checks, each once.
pub fn wanted_names(order: &[u32], checks: usize) -> Answer {
    let mut sorted = order.to_vec();
    sorted.sort_unstable();
    test(sorted == (0..checks as u32).collect::<Vec<_>>(), 23)
}

/// The most iterations that a decode with these settings can take, once they have passed 12 to 14.
pub fn most_iterations(settings: Settings) -> u64 {
    (settings.pre_iterations + settings.num_legs * settings.leg_iterations) as u64
}

/// 27: by shot the seed is a number of 48 bits.
pub fn wanted_seed(settings: Settings, seed: u64) -> Answer {
    test(settings.source != Source::ByShot || seed >> 48 == 0, 27)
}

/// 29: by the formula, at the most iterations.
pub fn wanted_stores(settings: Settings, detectors: &[Vec<u32>]) -> Answer {
    let each = stores::by_formula(settings.serial, detectors);
    let all = u128::from(most_iterations(settings)) * each;
    test(all <= u128::from(u64::MAX), 29)
}
