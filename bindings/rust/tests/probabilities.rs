//! Priors of probabilities, bit for bit, and graphs that are given by probabilities.

mod common;

use chowderkite::{prior_of, priors_of, BpGraph, RelayBp, RelayConfig, MAX_EDGES};
use chowderkite_sys::calls;
use chowderkite_sys::lists::{GraphLists, Size};
use common::{bits, outcome_bits, Random};

const UNIT: f64 = 4_294_967_296.0; // 2^32
const LEAST: f64 = 5e-324;

/// Probabilities, and their priors as the definition has them, worked out apart from the archive in whole numbers without limit.
const PRIORS: [(f64, i64, u64); 16] = [
    (0.0, 128_849_018_880, 0x403e_0000_0000_0000),
    (-0.0, 128_849_018_880, 0x403e_0000_0000_0000),
    (LEAST, 128_849_018_880, 0x403e_0000_0000_0000),
    (
        1.0 / (1_u64 << 44) as f64,
        128_849_018_880,
        0x403e_0000_0000_0000,
    ),
    (
        1.0 / (1_u64 << 43) as f64,
        128_012_912_246,
        0x403d_ce2a_0676_0000,
    ),
    (1e-3, 29_664_285_885, 0x401b_a084_52f4_0000),
    (0.01, 19_735_889_468, 0x4012_6167_18f0_0000),
    (0.05, 12_646_269_114, 0x4007_8e36_05d0_0000),
    (0.1, 9_437_007_695, 0x4001_93ea_7a78_0000),
    (0.25, 4_718_503_847, 0x3ff1_93ea_7a70_0000),
    (0.5, 0, 0),
    (0.75, -4_718_503_847, 0xbff1_93ea_7a70_0000),
    (0.9, -9_437_007_695, 0xc001_93ea_7a78_0000),
    (
        1.0 - 1.0 / (1_u64 << 43) as f64,
        -128_012_912_246,
        0xc03d_ce2a_0676_0000,
    ),
    (
        1.0 - f64::EPSILON / 2.0,
        -128_849_018_880,
        0xc03e_0000_0000_0000,
    ),
    (1.0, -128_849_018_880, 0xc03e_0000_0000_0000),
];

#[test]
fn of_the_definition() {
    for (probability, scaled, wanted) in PRIORS {
        let prior = prior_of(probability).unwrap();
        assert_eq!(prior.scaled, scaled, "{probability}");
        assert_eq!(prior.value.to_bits(), wanted, "{probability}");
        assert_eq!(prior.value, scaled as f64 / UNIT);
    }
}

#[test]
fn a_list_is_one_by_one() {
    let mut random = Random::new(10);
    let mut probabilities: Vec<f64> = PRIORS.iter().map(|&(p, _, _)| p).collect();
    probabilities.extend((0..1000).map(|_| probability(&mut random)));
    let priors = priors_of(&probabilities).unwrap();
    let each: Vec<_> = probabilities
        .iter()
        .map(|&p| prior_of(p).unwrap())
        .collect();
    let values: Vec<f64> = each.iter().map(|prior| prior.value).collect();
    let scaled: Vec<i64> = each.iter().map(|prior| prior.scaled).collect();
    assert_eq!(bits(&priors.values), bits(&values));
    assert_eq!(priors.scaled, scaled);
    let none = priors_of(&[]).unwrap();
    assert!(none.values.is_empty() && none.scaled.is_empty());
}

/// From 0 to 1, often small or near 1.
fn probability(random: &mut Random) -> f64 {
    let unit = (random.draw() >> 11) as f64 / (1_u64 << 53) as f64;
    match random.below(3) {
        0 => unit,
        1 => unit / (1_u64 << random.below(50)) as f64,
        _ => 1.0 - unit / (1_u64 << random.below(50)) as f64,
    }
}

/// Near the logarithm and not beyond it, falling, and turned at a half.
#[test]
fn laws() {
    let mut random = Random::new(11);
    let mut probabilities: Vec<f64> = (0..20_000).map(|_| probability(&mut random)).collect();
    probabilities.sort_by(f64::total_cmp);
    let priors = priors_of(&probabilities).unwrap();
    assert!(priors.scaled.is_sorted_by(|one, next| one >= next));
    for (&p, &prior) in probabilities.iter().zip(&priors.values) {
        // This `ln` is the library's: near enough for what is asked here.
        let exact = ((1.0 - p) / p).ln().clamp(-30.0, 30.0);
        let (size, slack) = (exact.abs() - prior.abs(), 1e-13);
        assert!(-slack <= size && size <= 256.0 / UNIT + slack, "{p}");
        let other = 1.0 - p;
        if 1.0 - other == p {
            assert_eq!(
                prior_of(other).unwrap().scaled,
                -prior_of(p).unwrap().scaled
            );
        }
    }
}

/// Mechanisms of up to three neighbouring checks: probabilities, offsets and detectors.
fn model(random: &mut Random, checks: usize, mechanisms: usize) -> (Vec<f64>, Vec<u32>, Vec<u32>) {
    let (mut offsets, mut detectors) = (vec![0], Vec::new());
    for _ in 0..mechanisms {
        let first = random.below(checks);
        let degree = random.below(4);
        detectors.extend((first..checks).take(degree).map(|check| check as u32));
        offsets.push(detectors.len() as u32);
    }
    let probabilities = (0..mechanisms).map(|_| probability(random)).collect();
    (probabilities, offsets, detectors)
}

#[test]
fn graphs_of_probabilities_are_those_of_their_priors() {
    let mut random = Random::new(12);
    for mechanisms in [0, 1, 2, 7, 60] {
        let checks = 1 + random.below(20);
        let (probabilities, offsets, detectors) = model(&mut random, checks, mechanisms);
        let values = priors_of(&probabilities).unwrap().values;

        let wanted = BpGraph::from_sparse_lists(checks, values.clone(), &offsets, &detectors);
        let wanted = wanted.unwrap();
        let list = |m: usize| &detectors[offsets[m] as usize..offsets[m + 1] as usize];
        let pairs: Vec<_> = (0..mechanisms)
            .map(|m| (probabilities[m], list(m)))
            .collect();
        let mut matrix = vec![0; checks * mechanisms];
        for mechanism in 0..mechanisms {
            for &check in list(mechanism) {
                matrix[check as usize * mechanisms + mechanism] = 1 + random.below(255) as u8;
            }
        }
        for made in [
            BpGraph::from_probability_lists(checks, &probabilities, &offsets, &detectors),
            BpGraph::from_probabilities(checks, &pairs),
            BpGraph::from_dense_probabilities(checks, &probabilities, &matrix),
            BpGraph::from_dense(checks, values.clone(), &matrix),
        ] {
            let made = made.unwrap();
            assert_eq!(made, wanted);
            assert_eq!(bits(made.prior_llrs()), bits(&values));
        }
    }
}

/// A decode over a graph of probabilities is that over a graph of their priors.
#[test]
fn decodes_agree() {
    let mut random = Random::new(13);
    let (probabilities, offsets, detectors) = model(&mut random, 20, 50);
    let of_probabilities =
        BpGraph::from_probability_lists(20, &probabilities, &offsets, &detectors);
    let values = priors_of(&probabilities).unwrap().values;
    let of_priors = BpGraph::from_sparse_lists(20, values, &offsets, &detectors).unwrap();
    let decoder = |graph| RelayBp::new(graph, RelayConfig::default()).unwrap();
    let mut one = decoder(of_probabilities.unwrap());
    let mut other = decoder(of_priors.clone());
    for seed in 0..20 {
        let syndrome = random.syndrome(&of_priors, 5);
        assert_eq!(
            outcome_bits(&one.decode(&syndrome, seed).unwrap()),
            outcome_bits(&other.decode(&syndrome, seed).unwrap())
        );
    }
}

// ---- the calls themselves, over lists that don't fit: nothing is written

const NO_PROBABILITIES: [f64; 7] = [
    f64::NAN,
    -0.1,
    1.5,
    -LEAST,
    1.0 + f64::EPSILON,
    f64::INFINITY,
    f64::NEG_INFINITY,
];

fn number_and_place(code: u64) -> (u64, u64) {
    (
        chowderkite_sys::chowderkite_number_of(code),
        chowderkite_sys::chowderkite_place_of(code),
    )
}

#[test]
fn prior_of_refuses() {
    for bad in NO_PROBABILITIES {
        // A code keeps a place modulo 2^32.
        for (mechanism, place) in [
            (0, 0),
            (7, 7),
            (u32::MAX as usize, u64::from(u32::MAX)),
            ((1 << 32) + 5, 5),
        ] {
            let (mut prior, mut scaled) = ([9.0], [9]);
            let code = calls::prior_of(bad, mechanism, &mut prior, &mut scaled);
            assert_eq!(number_and_place(code), (8, place), "{bad}");
            assert_eq!((prior, scaled), ([9.0], [9]));
        }
    }
}

#[test]
fn priors_of_refuses() {
    for bad in NO_PROBABILITIES {
        let (mut priors, mut scaled) = ([9.0; 4], [9; 4]);
        let code = calls::priors_of(&[0.1, 0.2, bad, f64::NAN], &mut priors, &mut scaled);
        assert_eq!(number_and_place(code), (8, 2), "{bad}");
        assert_eq!((priors, scaled), ([9.0; 4], [9; 4]));
    }
    // Lengths come before probabilities.
    for (of_priors, of_scaled) in [(1, 2), (2, 1), (3, 2), (2, 3), (0, 0), (3, 3)] {
        for probabilities in [[0.1, 0.2], [0.1, f64::NAN]] {
            let (mut priors, mut scaled) = (vec![9.0; of_priors], vec![9; of_scaled]);
            let code = calls::priors_of(&probabilities, &mut priors, &mut scaled);
            assert_eq!(number_and_place(code), (2, 0));
            assert_eq!((priors, scaled), (vec![9.0; of_priors], vec![9; of_scaled]));
        }
    }
}

/// The reference's G: 2 checks; detectors {0}, {0,1}, {1}.
const G: Size = Size {
    checks: 2,
    mechanisms: 3,
    edges: 4,
};

/// The code of both calls that build G, over changed lists that they must leave as they are.
fn refused(
    probabilities: &[f64],
    change: impl Fn(&mut Vec<f64>, &mut GraphLists),
) -> [(u64, u64); 2] {
    let (mut priors, mut lists) = (vec![9.0; G.mechanisms], GraphLists::filled(G, 9));
    change(&mut priors, &mut lists);
    let (priors_before, lists_before) = (priors.clone(), lists.clone());
    let sparse = calls::build_sparse_probabilities(
        G.checks,
        G.mechanisms,
        G.edges,
        probabilities,
        &[0, 1, 3, 4],
        &[0, 0, 1, 1],
        calls::MadeLists {
            priors: &mut priors,
            graph: lists.written(),
        },
    );
    let dense = calls::build_dense_probabilities(
        G.checks,
        G.mechanisms,
        probabilities,
        &[1, 1, 0, 0, 1, 1],
        calls::MadeLists {
            priors: &mut priors,
            graph: lists.written(),
        },
    );
    assert_eq!((priors, lists), (priors_before, lists_before));
    [number_and_place(sparse), number_and_place(dense)]
}

#[test]
fn building_refuses() {
    for bad in NO_PROBABILITIES {
        assert_eq!(refused(&[0.1, bad, 0.1], |_, _| {}), [(8, 1); 2], "{bad}");
        assert_eq!(refused(&[0.1, 1.0, bad], |_, _| {}), [(8, 2); 2], "{bad}");
        // The list of priors counts as a model list, and lengths come before probabilities.
        assert_eq!(
            refused(&[0.1, bad, 0.1], |priors, _| priors.truncate(2)),
            [(2, 0); 2]
        );
        assert_eq!(
            refused(&[0.1, bad, 0.1], |priors, _| priors.push(9.0)),
            [(2, 0); 2]
        );
    }
    assert_eq!(refused(&[0.1; 3], |priors, _| priors.clear()), [(2, 0); 2]);
    assert_eq!(refused(&[0.1; 2], |_, _| {}), [(2, 0); 2]);
    assert_eq!(refused(&[0.1; 4], |_, _| {}), [(2, 0); 2]);
    for list in 0..5 {
        assert_eq!(
            refused(&[0.1; 3], |_, lists| lists.each()[list].push(9)),
            [(2, 0); 2]
        );
        assert_eq!(
            refused(&[0.1; 3], |_, lists| lists.each()[list].clear()),
            [(2, 0); 2]
        );
    }
}

/// Of a dense model the edges' 1 stands between the 2 of what is given and the 2 of what is written.
#[test]
fn dense_edges_before_priors() {
    let side = 1025;
    let matrix = vec![1; side * side];
    assert!(matrix.len() > MAX_EDGES);
    let mut lists = GraphLists::default();
    for (given, wanted) in [(side, 1), (side - 1, 2)] {
        let mut priors = [9.0];
        let code = calls::build_dense_probabilities(
            side,
            side,
            &vec![f64::NAN; given],
            &matrix,
            calls::MadeLists {
                priors: &mut priors,
                graph: lists.written(),
            },
        );
        assert_eq!(number_and_place(code), (wanted, 0));
        assert_eq!(priors, [9.0]);
    }
}
