//! The calls over probabilities: single priors against the Rust's, lists of them, and models that are given by probabilities, of which the
//! graph, the beliefs and the decodes are compared with the Rust's, once it is handed these priors.

use crate::chances::{self, SORTS};
use crate::counts::Counts;
use crate::damage::{damage_common, damage_sparse, nudge_length};
use crate::decodes::{self, Names};
use crate::given::{Given, model_of, rust};
use crate::rounds::{Part, Rate};
use crate::table::{
    MOST_COUNT, MOST_EDGES, wanted_dense_probabilities, wanted_priors, wanted_sparse_probabilities,
};
use oracle::belief_cases::{BeliefCase, random_syndrome};
use oracle::bits::{bits, is_zero};
use oracle::decode_cases::{DecodeCase, random_case};
use oracle::exact;
use oracle::graph_cases::{GraphCase, Incidence};
use oracle::model::{Model, random_model};
use oracle::open::bp::{BpGraph, with_priors};
use oracle::open::drive as open;
use oracle::splitmix::SplitMix64;
use proved::{Answer, Beliefs, Lists, Run, Size};

pub const PARTS: &[Part] = &[
    Part {
        rate: Rate::Each(16),
        case: single,
    },
    Part {
        rate: Rate::Each(1),
        case: lists,
    },
    Part {
        rate: Rate::Each(1),
        case: small,
    },
    Part {
        rate: Rate::Each(1),
        case: damaged_sparse,
    },
    Part {
        rate: Rate::Each(1),
        case: damaged_dense,
    },
    Part {
        rate: Rate::First(16),
        case: too_many_edges,
    },
    Part {
        rate: Rate::Each(1),
        case: beliefs,
    },
    Part {
        rate: Rate::Each(1),
        case: decodes,
    },
    Part {
        rate: Rate::Every(1000),
        case: large_sparse,
    },
    Part {
        rate: Rate::Every(3000),
        case: large_dense,
    },
    Part {
        rate: Rate::Every(4000),
        case: large_decodes,
    },
    Part {
        rate: Rate::Each(1),
        case: spoiled,
    },
];

const ONE: f64 = 4_294_967_296.0;

/// How far the Rust's size may be from ours in units of 2^-32, below and above. Ours is proved to be rounded down by at most 256 from a sum
/// that is 0.044 less than the logarithm; the rest is for what the Rust's own roundings come to, which is less than 0.0001.
const BELOW: f64 = -0.001;
const ABOVE: f64 = 256.05;

/// A list's answer: the Rust's 4 is our 8.
fn as_ours(answer: Answer) -> Answer {
    answer.map_err(|(number, place)| (if number == 4 { 8 } else { number }, place))
}

/// What `prior_of` answers, with the prior and the whole number.
fn prior_of(p: f64, mechanism: usize) -> (Answer, f64, i64) {
    let (mut prior, mut scaled) = ([7.5], [7]);
    let answer = proved::prior_of(p, mechanism, &mut prior, &mut scaled);
    (answer, prior[0], scaled[0])
}

fn single(case: u64, random: &mut SplitMix64, counts: &mut Counts) {
    if random.once_in(16) {
        let (p, mechanism) = (chances::none(random), random.below(MOST_COUNT));
        let (answer, prior, scaled) = prior_of(p, mechanism);
        let wanted = Err((8, mechanism as u64));
        let good = answer == wanted && (prior, scaled) == (7.5, 7);
        counts.check("priors, single", wanted, good, || {
            format!("{answer:?}, {prior:?}, {scaled} for {wanted:?}: {p:e}")
        });
        return;
    }
    let sort = &SORTS[case as usize % SORTS.len()];
    let p = (sort.draw)(random);
    let (answer, prior, scaled) = prior_of(p, 0);
    let theirs = exact::drive::priors(&[p])[0];
    // All of it is exact but the last step, and that nearly.
    let distance = (theirs.abs() - prior.abs()) * ONE;
    let near = (BELOW..=ABOVE).contains(&distance) && prior * theirs >= 0.0;
    let whole = (scaled as f64 / ONE).to_bits() == prior.to_bits();
    counts.see(sort.name, distance.abs(), || {
        let apart = (theirs - prior).abs();
        format!("{apart:.3e}; p = {p:e}, {prior:?} for {theirs:?}")
    });
    counts.check(
        "priors, single",
        Ok(()),
        answer == Ok(()) && near && whole,
        || format!("{answer:?}, {prior:?}, {scaled} for {theirs:?}: {p:e}"),
    );
}

fn lists(_: u64, random: &mut SplitMix64, counts: &mut Counts) {
    let count = random.below(40);
    let mut probabilities: Vec<f64> = (0..count).map(|_| chances::any(random)).collect();
    let (mut priors, mut scaled) = (vec![7.5; count], vec![7; count]);
    if random.once_in(2) {
        for _ in 0..random.between(1, 3) {
            match random.below(8) {
                0 => nudge_length(random, &mut probabilities, 0.5),
                1 => nudge_length(random, &mut priors, 7.5),
                2 => nudge_length(random, &mut scaled, 7),
                _ => spoil(random, &mut probabilities),
            }
        }
    }
    let wanted = wanted_priors(&probabilities, priors.len(), scaled.len());
    let before = (priors.clone(), scaled.clone());
    let answer = proved::priors_of(&probabilities, &mut priors, &mut scaled);
    let good = match wanted {
        Ok(()) => probabilities.iter().enumerate().all(|(place, &p)| {
            let (answer, prior, one) = prior_of(p, place);
            answer == Ok(()) && prior.to_bits() == priors[place].to_bits() && one == scaled[place]
        }),
        Err(_) => (&priors, &scaled) == (&before.0, &before.1),
    };
    // The Rust can be asked where the lengths are right: it refuses the same probability, as mechanisms without detectors.
    let asked = matches!(wanted, Err((2, _))) || {
        let theirs = rust(&GraphCase::sparse(Model {
            checks: 0,
            detectors: vec![Vec::new(); probabilities.len()],
            probabilities: probabilities.clone(),
        }));
        as_ours(theirs.map(|_| ())) == wanted
    };
    counts.check(
        "priors, lists",
        wanted,
        answer == wanted && good && asked,
        || format!("{answer:?} for {wanted:?}: {probabilities:?}, {priors:?}, {scaled:?}"),
    );
}

/// Puts what is no probability at some place.
fn spoil(random: &mut SplitMix64, probabilities: &mut [f64]) {
    if !probabilities.is_empty() {
        let place = random.below(probabilities.len());
        probabilities[place] = chances::none(random);
    }
}

// ---- models

/// A case with lists that fit, into which neither priors nor graph are written yet.
fn given_of(case: &GraphCase, random: &mut SplitMix64) -> Given {
    let mut given = Given::of(case, random);
    given.priors.fill(random.pick(&[7.5, -0.0, f64::NAN]));
    given
}

fn build(given: &mut Given, dense: bool) -> Answer {
    if dense {
        proved::build_dense_probabilities(
            given.size.checks,
            given.size.mechanisms,
            &given.probabilities,
            &given.matrix,
            &mut given.priors,
            &mut given.lists,
        )
    } else {
        proved::build_sparse_probabilities(
            given.size,
            &given.probabilities,
            &given.offsets,
            &given.detectors,
            &mut given.priors,
            &mut given.lists,
        )
    }
}

/// The same in two calls: `priors_of`, and building from priors. So that the second is asked whatever the first refuses, each probability is
/// handed to `prior_of`, and one that it refuses has a NaN for its prior; and where the list to be written does not fit, a graph list does not.
fn in_two(before: &Given, dense: bool) -> (Answer, Given) {
    let mut given = before.clone();
    let prior = |(place, &p): (usize, &f64)| match prior_of(p, place) {
        (Ok(()), prior, _) => prior,
        _ => f64::NAN,
    };
    given.priors = given.probabilities.iter().enumerate().map(prior).collect();
    if before.priors.len() != before.size.mechanisms {
        let other = given.lists.var_message.len() + 1000;
        given.lists.var_message.resize(other, 7);
    }
    let answer = if dense {
        given.build_dense()
    } else {
        given.build_sparse()
    };
    (as_ours(answer), given)
}

/// `priors_of`, over lists that fit.
fn priors_of(probabilities: &[f64]) -> (Answer, Vec<f64>) {
    let mut priors = vec![7.5; probabilities.len()];
    let answer = proved::priors_of(
        probabilities,
        &mut priors,
        &mut vec![7; probabilities.len()],
    );
    (answer, priors)
}

/// The incidences of a matrix as a sparse model.
fn sparse_of(given: &Given) -> GraphCase {
    let Size {
        checks, mechanisms, ..
    } = given.size;
    let of = |mechanism: usize| {
        let marked = |check: &usize| given.matrix[check * mechanisms + mechanism] != 0;
        (0..checks)
            .filter(marked)
            .map(|check| check as u32)
            .collect()
    };
    GraphCase {
        checks,
        probabilities: given.probabilities.clone(),
        incidence: Incidence::Sparse((0..mechanisms).map(of).collect()),
    }
}

/// Builds it, in one call and in two, with what the table wants, and what the Rust answers where it can be asked. The Rust's dense models have
/// no test of probabilities, so of a refused one the sparse model of the same incidences is asked.
fn ask_all(name: &'static str, mut given: Given, dense: bool, counts: &mut Counts) -> Given {
    let wanted = if dense {
        wanted_dense_probabilities(&given)
    } else {
        wanted_sparse_probabilities(&given)
    };
    let before = given.clone();
    let answer = build(&mut given, dense);
    let (twice, other) = in_two(&before, dense);
    let theirs = match wanted {
        Ok(()) if dense => Some(rust(&GraphCase {
            checks: given.size.checks,
            probabilities: given.probabilities.clone(),
            incidence: Incidence::Dense(given.matrix.clone()),
        })),
        Err((8, _)) if dense => Some(rust(&sparse_of(&given))),
        Ok(()) | Err((5 | 6 | 8, _)) => Some(rust(&given.nested())),
        Err(_) => None,
    };
    let good = match wanted {
        Ok(()) => {
            // A dense model's edges are counted, whatever was said of them.
            given.size.edges = given.lists.check_var.len();
            let (all, priors) = priors_of(&given.probabilities);
            all == Ok(())
                && bits(&given.priors) == bits(&priors)
                && given.lists == other.lists
                && theirs == Some(Ok(given.lists.clone()))
                && given.check_graph() == Ok(())
        }
        Err(_) => {
            bits(&given.priors) == bits(&before.priors)
                && given.lists == before.lists
                && theirs.is_none_or(|theirs| as_ours(theirs.map(|_| ())) == wanted)
        }
    };
    counts.check(
        name,
        wanted,
        answer == wanted && twice == wanted && good,
        || format!("{answer:?}, {twice:?} for {wanted:?}: {given:?}"),
    );
    given
}

fn small(_: u64, random: &mut SplitMix64, counts: &mut Counts) {
    let most = random.pick(&[2, 4, 8, 16, 32]);
    let other = random.pick(&[2, 4, 8, 16, 32]);
    let model = with_chances(random_model(random, most, other), random);
    let dense = given_of(&GraphCase::dense(&model, random), random);
    let sparse = given_of(&GraphCase::sparse(model), random);
    ask_all(
        "models of probabilities, small sparse",
        sparse,
        false,
        counts,
    );
    ask_all("models of probabilities, small dense", dense, true, counts);
}

/// The model with other probabilities.
fn with_chances(mut model: Model, random: &mut SplitMix64) -> Model {
    model.probabilities = chances::of_model(random, model.probabilities.len());
    model
}

/// Damage that a model given by probabilities can have beside that of others.
fn damage_chances(random: &mut SplitMix64, given: &mut Given) {
    match random.below(6) {
        0 => nudge_length(random, &mut given.probabilities, 0.5),
        1 => nudge_length(random, &mut given.priors, 7.5),
        _ => spoil(random, &mut given.probabilities),
    }
}

fn damaged_sparse(_: u64, random: &mut SplitMix64, counts: &mut Counts) {
    let most = random.pick(&[2, 4, 8, 16]);
    let model = with_chances(random_model(random, most, most), random);
    let mut given = given_of(&GraphCase::sparse(model), random);
    for _ in 0..random.between(1, 3) {
        if random.once_in(2) {
            damage_chances(random, &mut given);
        } else {
            damage_sparse(random, &mut given);
        }
    }
    ask_all(
        "models of probabilities, damaged sparse",
        given,
        false,
        counts,
    );
}

/// One to three faults of mechanisms, of which the first in their order is to be told: 8 before 5 and 6 in one mechanism.
fn spoiled(_: u64, random: &mut SplitMix64, counts: &mut Counts) {
    let most = random.pick(&[2, 4, 8, 16]);
    let mut model = with_chances(random_model(random, most, most), random);
    let mut bad = Vec::new();
    for _ in 0..random.between(1, 3) {
        if model.detectors.is_empty() {
            break;
        }
        let mechanism = random.below(model.detectors.len());
        let list = &mut model.detectors[mechanism];
        match random.below(4) {
            0 => {
                let place = random.between(0, list.len());
                list.insert(place, model.checks as u32 + random.pick(&[0, 1, 1 << 16]));
            }
            1 if !list.is_empty() => {
                let (again, place) = (random.pick(list), random.between(0, list.len()));
                list.insert(place, again);
            }
            _ => bad.push(mechanism),
        }
    }
    let mut given = given_of(&GraphCase::sparse(model), random);
    for mechanism in bad {
        given.probabilities[mechanism] = chances::none(random);
    }
    let name = "models of probabilities, with faults of mechanisms";
    ask_all(name, given, false, counts);
}

fn damaged_dense(_: u64, random: &mut SplitMix64, counts: &mut Counts) {
    let most = random.pick(&[2, 4, 8, 16]);
    let model = with_chances(random_model(random, most, most), random);
    let mut given = given_of(&GraphCase::dense(&model, random), random);
    for _ in 0..random.between(1, 3) {
        match random.below(8) {
            0 => nudge_length(random, &mut given.matrix, 3),
            1 if !given.matrix.is_empty() => {
                // An edge more or less than the lists are for.
                let at = random.below(given.matrix.len());
                given.matrix[at] ^= 1;
            }
            2..=4 => damage_common(random, &mut given),
            _ => damage_chances(random, &mut given),
        }
    }
    ask_all(
        "models of probabilities, damaged dense",
        given,
        true,
        counts,
    );
}

/// One edge above the limit, and at it, with graph lists, a list of priors and probabilities good and bad: 1 comes before 2 and 8 here.
fn too_many_edges(case: u64, random: &mut SplitMix64, counts: &mut Counts) {
    let case = case as usize;
    let edges = MOST_EDGES + case / 8;
    let size = Size {
        checks: 1025,
        mechanisms: 1024,
        edges: edges + case % 2,
    };
    let mut matrix = vec![0; size.checks * size.mechanisms];
    matrix[..edges].fill(255);
    let mut given = Given {
        size,
        probabilities: vec![0.25; size.mechanisms],
        priors: vec![7.5; size.mechanisms + case / 2 % 2],
        offsets: vec![],
        detectors: vec![],
        matrix,
        lists: Lists::filled(size, 7),
    };
    if case / 4 % 2 == 1 {
        spoil(random, &mut given.probabilities);
    }
    ask_all(
        "models of probabilities, edges at the limit and above",
        given,
        true,
        counts,
    );
}

/// Checks, mechanisms and edges at the limits and at nothing.
const SPARSE: [(usize, usize, usize); 6] = [
    (MOST_COUNT, MOST_COUNT, MOST_EDGES),
    (1024, MOST_COUNT, MOST_COUNT),
    (MOST_COUNT, 0, 0),
    (0, MOST_COUNT, 0),
    (MOST_COUNT, 1, MOST_COUNT),
    (16, MOST_COUNT, MOST_EDGES),
];

/// One in two has a bad probability somewhere.
fn large_sparse(case: u64, random: &mut SplitMix64, counts: &mut Counts) {
    let (checks, mechanisms, edges) = SPARSE[case as usize % SPARSE.len()];
    let size = Size {
        checks,
        mechanisms,
        edges,
    };
    let model = with_chances(model_of(size, random), random);
    let mut given = given_of(&GraphCase::sparse(model), random);
    if random.once_in(2) {
        spoil(random, &mut given.probabilities);
    }
    ask_all(
        "models of probabilities, large sparse",
        given,
        false,
        counts,
    );
}

fn large_dense(case: u64, random: &mut SplitMix64, counts: &mut Counts) {
    let (checks, mechanisms) = random.pick(&[(1024, 1024), (64, MOST_COUNT), (MOST_COUNT, 32)]);
    let byte = |random: &mut SplitMix64| u8::from(random.once_in(5));
    let matrix = (0..checks * mechanisms).map(|_| byte(random)).collect();
    let mut given = given_of(
        &GraphCase {
            checks,
            probabilities: chances::of_model(random, mechanisms),
            incidence: Incidence::Dense(matrix),
        },
        random,
    );
    if !case.is_multiple_of(2) {
        spoil(random, &mut given.probabilities);
    }
    ask_all("models of probabilities, large dense", given, true, counts);
}

// ---- beliefs and decodes

/// The model built from its probabilities, as a sparse one or as a dense one, and the Rust's graph with the same priors.
fn built(model: &Model, random: &mut SplitMix64) -> (Given, Answer, BpGraph) {
    let dense = random.once_in(2) && model.checks * model.mechanisms() <= 1 << 20;
    let case = if dense {
        GraphCase::dense(model, random)
    } else {
        GraphCase::sparse(model.clone())
    };
    let mut given = given_of(&case, random);
    let answer = build(&mut given, dense);
    let graph = open::sparse_graph(model).expect("these models build");
    let graph = with_priors(graph, &given.priors);
    (given, answer, graph)
}

/// A run of min-sum on each schedule. The scales leave no NaN whose sign is read.
fn beliefs(_: u64, random: &mut SplitMix64, counts: &mut Counts) {
    let most = random.pick(&[2, 4, 6, 9, 14, 24]);
    let model = with_chances(random_model(random, most, most * 3 / 2), random);
    let (given, built, graph) = built(&model, random);
    let (iterations, scale) = match random.below(4) {
        0 => (
            random.below(21),
            random.pick(&[1.0, 0.5, 0.9, 0.625, 2.0, -0.5, -1.25, 0.0, -0.0]),
        ),
        1 => (random.below(2), random.pick(&[1e300, -1e308, 1e308])),
        _ => (random.below(21), 0.3 + random.unit()),
    };
    for serial in [false, true] {
        let case = BeliefCase {
            syndrome: random_syndrome(random, model.checks),
            model: model.clone(),
            iterations,
            scale,
            serial,
        };
        let mut lists = Beliefs::filled(given.size, random.pick(&[1.5, -0.0, f64::NAN]));
        let run = Run {
            syndrome: &case.syndrome,
            iterations,
            scale,
            serial,
        };
        let answer = given.beliefs(run, &mut lists);
        let theirs = open::beliefs_over(&graph, &case).map_err(|refusal| refusal.pair());
        let same = match (answer, &theirs) {
            (Ok(()), Ok(posterior)) => bits(&lists.posterior) == bits(posterior),
            (Err(refusal), Err(other)) => refusal == *other && is_zero(&lists.posterior),
            _ => false,
        };
        counts.check(
            "beliefs of probabilities",
            theirs.as_ref().map(|_| ()).map_err(|refusal| *refusal),
            built == Ok(()) && same,
            || format!("{answer:?}, {:?} for {theirs:?}: {case:?}", lists.posterior),
        );
    }
}

/// A decode on each schedule, in index order and in others.
fn decode(names: Names, mut case: DecodeCase, random: &mut SplitMix64, counts: &mut Counts) {
    let (given, built, graph) = built(&case.model, random);
    for serial in [false, true] {
        case.settings.serial = serial;
        let theirs = open::decode_over(graph.clone(), &case);
        let rust = (&theirs, &graph);
        decodes::compare_over(names, (&given, built), &case, rust, random, counts);
    }
}

fn decodes(case: u64, random: &mut SplitMix64, counts: &mut Counts) {
    let mut case = random_case(random, case as usize);
    case.model = with_chances(case.model, random);
    let names = Names::of([
        "decodes of probabilities",
        "orders of decodes of probabilities",
        "legs, best of decodes of probabilities",
        "stores of decodes of probabilities",
    ]);
    decode(names, case, random, counts);
}

fn large_decodes(case: u64, random: &mut SplitMix64, counts: &mut Counts) {
    let case = decodes::large_case(2 * case, random);
    let names = Names::of([
        "large decodes of probabilities",
        "orders of large decodes of probabilities",
        "legs, best of large decodes of probabilities",
        "stores of large decodes of probabilities",
    ]);
    decode(names, case, random, counts);
}
