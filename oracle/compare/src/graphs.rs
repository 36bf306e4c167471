//! The calls of the crate `graph` against the Rust: every list on small and on large models, and damaged models and lists
//! against what the reference's table says of them, with the Rust's own error beside it where it has one.

use crate::counts::Counts;
use crate::damage::{damage_common, damage_lists, damage_sparse, nudge_length};
use crate::fronts;
use crate::given::{Given, model_of, rust};
use crate::rounds::{Part, Rate};
use crate::table::{MOST_COUNT, MOST_EDGES, wanted_dense, wanted_lists, wanted_sparse};
use oracle::graph_cases::{GraphCase, Incidence};
use oracle::model::random_model;
use oracle::splitmix::SplitMix64;
use proved::{Lists, Size};

pub const PARTS: &[Part] = &[
    Part {
        rate: Rate::Each(1),
        case: small,
    },
    Part {
        rate: Rate::Every(1000),
        case: large_sparse,
    },
    Part {
        rate: Rate::Every(3000),
        case: large_dense,
    },
    Part {
        rate: Rate::Each(1),
        case: damaged_sparse,
    },
    Part {
        rate: Rate::Each(1),
        case: damaged_dense,
    },
    Part {
        rate: Rate::First(8),
        case: too_many_edges,
    },
    Part {
        rate: Rate::Each(1),
        case: damaged_lists,
    },
    Part {
        rate: Rate::Each(1),
        case: fronts::small,
    },
    Part {
        rate: Rate::Every(200),
        case: fronts::hub,
    },
];

/// Builds one case both ways, and has the lists tested.
fn build(name: &'static str, case: &GraphCase, random: &mut SplitMix64, counts: &mut Counts) {
    let mut given = Given::of(case, random);
    let counted = proved::count_edges(&given.matrix) == given.size.edges || !case.is_dense();
    let answer = if case.is_dense() {
        given.build_dense()
    } else {
        given.build_sparse()
    };
    let same = rust(case).as_ref() == Ok(&given.lists) && answer == Ok(());
    let good = counted && same && given.check_graph() == Ok(());
    counts.check(name, Ok(()), good, || {
        format!("{:?}: {answer:?}", given.size)
    });
}

fn small(_: u64, random: &mut SplitMix64, counts: &mut Counts) {
    let most = random.pick(&[2, 4, 8, 16, 32, 48]);
    let other = random.pick(&[2, 4, 8, 16, 32, 48]);
    let model = random_model(random, most, other);
    let dense = GraphCase::dense(&model, random);
    let sparse = GraphCase::sparse(model);
    build("graphs, small sparse", &sparse, random, counts);
    build("graphs, small dense", &dense, random, counts);
}

/// Checks, mechanisms and edges at the limits and at nothing.
const SPARSE: [(usize, usize, usize); 12] = [
    (MOST_COUNT, MOST_COUNT, MOST_EDGES),
    (MOST_COUNT, MOST_COUNT, MOST_EDGES - 1),
    (MOST_COUNT, MOST_COUNT, MOST_COUNT),
    (MOST_COUNT, MOST_COUNT, 1),
    (MOST_COUNT, MOST_COUNT, 0),
    (MOST_COUNT, 0, 0),
    (0, MOST_COUNT, 0),
    (MOST_COUNT, 1, MOST_COUNT),
    (1, MOST_COUNT, MOST_COUNT),
    (16, MOST_COUNT, MOST_EDGES),
    (1024, 1024, MOST_EDGES),
    (MOST_COUNT, 1024, MOST_EDGES),
];

/// One size of the list, then two of random ones.
fn large_sparse(case: u64, random: &mut SplitMix64, counts: &mut Counts) {
    let (checks, mechanisms, edges) = if case.is_multiple_of(3) {
        SPARSE[case as usize / 3 % SPARSE.len()]
    } else {
        let (checks, mechanisms) = (random.between(1, MOST_COUNT), random.between(1, MOST_COUNT));
        let most = (mechanisms * checks.min(64)).min(MOST_EDGES);
        (checks, mechanisms, random.between(0, most))
    };
    let size = Size {
        checks,
        mechanisms,
        edges,
    };
    let model = model_of(size, random);
    let sparse = GraphCase::sparse(model);
    build("graphs, large sparse", &sparse, random, counts);
}

/// Checks, mechanisms, and one byte in how many is an incidence: up to the limit of edges.
const DENSE: [(usize, usize, usize); 12] = [
    (1024, 1024, 1),
    (16, MOST_COUNT, 1),
    (MOST_COUNT, 16, 1),
    (MOST_COUNT, 32, 3),
    (2048, 2048, 5),
    (4096, 2048, 9),
    (8192, 1024, 100),
    (1, MOST_COUNT, 2),
    (MOST_COUNT, 1, 2),
    (3000, 1500, 100_000),
    (64, MOST_COUNT, 5),
    (MOST_COUNT, 128, 10),
];

fn large_dense(case: u64, random: &mut SplitMix64, counts: &mut Counts) {
    let (checks, mechanisms, one_in) = DENSE[case as usize % DENSE.len()];
    let byte = |random: &mut SplitMix64| u8::from(random.once_in(one_in));
    let matrix = (0..checks * mechanisms).map(|_| byte(random)).collect();
    let dense = GraphCase {
        checks,
        probabilities: (0..mechanisms).map(|_| random.unit()).collect(),
        incidence: Incidence::Dense(matrix),
    };
    build("graphs, large dense", &dense, random, counts);
}

fn damaged_sparse(_: u64, random: &mut SplitMix64, counts: &mut Counts) {
    let most = random.pick(&[2, 4, 8, 16]);
    let case = GraphCase::sparse(random_model(random, most, most));
    let mut given = Given::of(&case, random);
    for _ in 0..random.between(1, 3) {
        damage_sparse(random, &mut given);
    }
    ask_both("graphs, damaged sparse", &mut given, counts);
}

/// A sparse model, damaged or not: what the table says of it, and the Rust where it can be asked.
pub fn ask_both(name: &'static str, given: &mut Given, counts: &mut Counts) {
    let before = given.lists.clone();
    let wanted = wanted_sparse(given);
    let answer = given.build_sparse();
    let good = match wanted {
        // Here the Rust can be asked too; it gives 4 for what is no probability.
        Ok(()) | Err((4..=6, _)) => match rust(&given.nested()) {
            Ok(lists) => wanted == Ok(()) && given.lists == lists,
            Err(refusal) => wanted == Err(refusal) && given.lists == before,
        },
        Err(_) => given.lists == before,
    };
    counts.check(name, wanted, good && answer == wanted, || {
        format!("{answer:?} for {wanted:?}: {given:?}")
    });
}

fn damaged_dense(_: u64, random: &mut SplitMix64, counts: &mut Counts) {
    let most = random.pick(&[2, 4, 8, 16]);
    let model = random_model(random, most, most);
    let mut given = Given::of(&GraphCase::dense(&model, random), random);
    for _ in 0..random.between(1, 3) {
        if random.once_in(6) {
            nudge_length(random, &mut given.matrix, 3);
        } else if random.once_in(6) && !given.matrix.is_empty() {
            // An edge more or less than the lists are for.
            let at = random.below(given.matrix.len());
            given.matrix[at] ^= 1;
        } else {
            damage_common(random, &mut given);
        }
    }
    let before = given.lists.clone();
    let wanted = wanted_dense(&given);
    let answer = given.build_dense();
    let good = match wanted {
        Ok(()) => {
            let case = GraphCase {
                checks: given.size.checks,
                probabilities: given.probabilities.clone(),
                incidence: Incidence::Dense(given.matrix.clone()),
            };
            rust(&case).as_ref() == Ok(&given.lists)
        }
        Err(_) => given.lists == before,
    };
    counts.check(
        "graphs, damaged dense",
        wanted,
        good && answer == wanted,
        || format!("{answer:?} for {wanted:?}: {given:?}"),
    );
}

/// One edge above the limit, and at it, with lists and priors good and bad: 1 comes before 2 and 4 here.
fn too_many_edges(case: u64, _: &mut SplitMix64, counts: &mut Counts) {
    let edges = MOST_EDGES + case as usize / 4;
    let (list, prior) = [(0, 0.0), (1, 0.0), (0, 31.0), (1, 31.0)][case as usize % 4];
    let size = Size {
        checks: 1025,
        mechanisms: 1024,
        edges: edges + list,
    };
    let mut matrix = vec![0; size.checks * size.mechanisms];
    matrix[..edges].fill(255);
    let mut given = Given {
        size,
        probabilities: vec![],
        priors: vec![prior; size.mechanisms],
        offsets: vec![],
        detectors: vec![],
        matrix,
        lists: Lists::filled(size, 7),
    };
    let before = given.lists.clone();
    let wanted = wanted_dense(&given);
    let answer = given.build_dense();
    let kept = wanted == Ok(()) || given.lists == before;
    counts.check(
        "graphs, edges at the limit and above",
        wanted,
        kept && answer == wanted,
        || format!("{answer:?} for {wanted:?}: {size:?}"),
    );
}

fn damaged_lists(_: u64, random: &mut SplitMix64, counts: &mut Counts) {
    let most = random.pick(&[1, 2, 3, 8]);
    let case = GraphCase::sparse(random_model(random, most, most));
    let mut given = Given::of(&case, random);
    if given.build_sparse() != Ok(()) {
        counts.check("graphs, damaged lists", Ok(()), false, || {
            format!("a good model is refused: {given:?}")
        });
        return;
    }
    for _ in 0..random.between(1, 2) {
        damage_lists(random, &mut given);
    }
    let wanted = wanted_lists(&given);
    let answer = given.check_graph();
    counts.check("graphs, damaged lists", wanted, answer == wanted, || {
        format!("{answer:?} for {wanted:?}: {given:?}")
    });
}
