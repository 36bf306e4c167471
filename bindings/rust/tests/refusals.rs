//! Each refusal of the reference's table that has to do with this crate, with its place.

mod common;

use chowderkite::{
    iteration, min_sum, min_sum_into, prior_of, priors_of, BpGraph, BpScratch, Error, GammaSource,
    GraphLists, Refusal, RelayBp, RelayConfig, RelayState, Schedule, MAX_CHECKS, MAX_COUNT,
    MAX_EDGES, MAX_MECHANISMS,
};
use common::{bits, model_g, plain, stores_at, BAD_CLIPS};
use Schedule::{CheckSerial, Flooding};

fn assert_refused<T>(answer: Result<T, Error>, refusal: Refusal, place: Option<usize>) {
    match answer {
        Ok(_) => panic!("{refusal:?} was expected"),
        Err(error) => assert_eq!((error.refusal(), error.place()), (refusal, place)),
    }
}

fn new(change: impl FnOnce(&mut RelayConfig)) -> Result<RelayBp, Error> {
    let mut config = RelayConfig::default();
    change(&mut config);
    RelayBp::new(model_g(), config)
}

#[test]
fn every_number() {
    let numbers: Vec<u16> = Refusal::ALL
        .iter()
        .map(|refusal| refusal.number())
        .collect();
    let wanted: Vec<u16> = (1..=30)
        .chain(40..=46)
        .chain(50..=52)
        .chain(55..=58)
        .chain(60..=63)
        .collect();
    assert_eq!(numbers, wanted);
    let with_place: Vec<u16> = Refusal::ALL
        .iter()
        .filter(|refusal| refusal.place_counts().is_some())
        .map(|refusal| refusal.number())
        .collect();
    let wanted = [4, 5, 6, 8, 19, 21, 24, 28, 30, 50, 51, 52, 55, 56, 57, 58];
    assert_eq!(with_place, wanted);
}

#[test]
fn words() {
    let error = RelayBp::new(model_g(), plain(CheckSerial, 2))
        .unwrap()
        .decode_in_order(&[1, 0], 0, &[1, 0])
        .unwrap_err();
    assert_eq!((error.number(), error.name()), (24, "OrderExchanged"));
    assert_eq!(
        error.to_string(),
        "refused with 24, OrderExchanged, at check 0: decode, CheckSerial: two checks that share a mechanism exchanged"
    );
    let error = new(|config| config.stop_after_converged = 0).unwrap_err();
    assert_eq!(
        error.to_string(),
        "refused with 16, BadStop: stop_after_converged 0"
    );
}

#[test]
fn refusal_1() {
    let refused = |answer| assert_refused(answer, Refusal::SizeAboveLimit, None);
    let none: [(f64, [u32; 0]); 0] = [];
    BpGraph::from_sparse(MAX_CHECKS, &none).unwrap();
    refused(BpGraph::from_sparse(MAX_CHECKS + 1, &none));
    refused(BpGraph::from_sparse(usize::MAX, &none));
    refused(BpGraph::from_dense(usize::MAX, vec![4.0], &[]));
    let many = vec![(4.0, [0]); MAX_MECHANISMS + 1];
    BpGraph::from_sparse(1, &many[1..]).unwrap();
    refused(BpGraph::from_sparse(1, &many));
    // The sizes are tested before detectors, which are repeated here.
    let detectors = vec![0; MAX_EDGES + 1];
    refused(BpGraph::from_sparse(1, &[(4.0, &detectors)]));
    let config = RelayConfig::default();
    config.check(MAX_MECHANISMS).unwrap();
    let answer = config.check(MAX_MECHANISMS + 1);
    assert_refused(answer, Refusal::SizeAboveLimit, None);
    let side = 1025;
    let matrix = vec![1; side * side];
    refused(BpGraph::from_dense(side, vec![4.0; side], &matrix));

    refused(BpGraph::from_probabilities(MAX_CHECKS + 1, &none));
    refused(BpGraph::from_probabilities(1, &many));
    refused(BpGraph::from_probabilities(1, &[(4.0, &detectors)]));
    refused(BpGraph::from_dense_probabilities(usize::MAX, &[0.1], &[]));
    refused(BpGraph::from_dense_probabilities(
        side,
        &vec![4.0; side],
        &matrix,
    ));
}

#[test]
fn refusal_2() {
    let refused = |answer| assert_refused(answer, Refusal::ModelListLength, None);
    refused(BpGraph::from_sparse_lists(2, vec![4.0], &[0], &[]));
    refused(BpGraph::from_sparse_lists(2, vec![4.0], &[0, 1, 1], &[0]));
    refused(BpGraph::from_dense(2, vec![4.0; 3], &[1; 5]));
    refused(BpGraph::from_dense(2, vec![4.0; 3], &[1; 7]));
    refused(BpGraph::from_probability_lists(2, &[0.1], &[0], &[]));
    refused(BpGraph::from_probability_lists(2, &[0.1], &[0, 1, 1], &[0]));
    refused(BpGraph::from_dense_probabilities(2, &[4.0; 3], &[1; 5]));
    refused(BpGraph::from_dense_probabilities(2, &[4.0; 3], &[1; 7]));
    refused(BpGraph::from_lists(
        3,
        vec![4.0; 3],
        model_g().lists().clone(),
    ));
    refused(BpGraph::from_lists(2, vec![4.0; 3], GraphLists::default()));
}

#[test]
fn refusal_3() {
    for offsets in [[1, 1], [0, 1], [0, 3], [3, 2]] {
        assert_refused(
            BpGraph::from_sparse_lists(2, vec![4.0], &offsets, &[0, 1]),
            Refusal::BadDetectorOffsets,
            None,
        );
        assert_refused(
            BpGraph::from_probability_lists(2, &[4.0], &offsets, &[0, 1]),
            Refusal::BadDetectorOffsets,
            None,
        );
    }
}

#[test]
fn refusals_4_to_6() {
    let model = |second: (f64, Vec<u32>)| {
        BpGraph::from_sparse(2, &[(4.0, vec![0]), second, (f64::NAN, vec![9])])
    };
    for prior in [30.5, -30.5, f64::NAN, f64::INFINITY] {
        assert_refused(model((prior, vec![9])), Refusal::BadPrior, Some(1));
    }
    assert_refused(
        model((30.0, vec![1, 2, 1])),
        Refusal::DetectorOutOfRange,
        Some(1),
    );
    assert_refused(
        model((-30.0, vec![1, 1, 2])),
        Refusal::DetectorRepeated,
        Some(1),
    );
    assert_refused(model((4.0, vec![1])), Refusal::BadPrior, Some(2));
    assert_refused(
        BpGraph::from_dense(1, vec![4.0, 31.0], &[1, 1]),
        Refusal::BadPrior,
        Some(1),
    );
}

#[test]
fn refusal_7() {
    let mut lists = model_g().lists().clone();
    lists.check_var.swap(0, 1);
    assert_refused(
        BpGraph::from_lists(2, vec![4.0; 3], lists),
        Refusal::NoSuchGraph,
        None,
    );
}

/// Where 4 stands when priors are given.
#[test]
fn refusal_8() {
    let model = |second: (f64, Vec<u32>)| {
        BpGraph::from_probabilities(2, &[(0.1, vec![0]), second, (f64::NAN, vec![9])])
    };
    for bad in [f64::NAN, -0.1, 1.5, -5e-324, f64::INFINITY] {
        let refusal = Refusal::BadProbability;
        assert_refused(prior_of(bad), refusal, Some(0));
        assert_refused(priors_of(&[0.1, 1.0, bad, bad]), refusal, Some(2));
        // Before the mechanism's own detectors,
        assert_refused(model((bad, vec![9])), refusal, Some(1));
        assert_refused(model((bad, vec![1, 1])), refusal, Some(1));
        assert_refused(
            BpGraph::from_dense_probabilities(1, &[0.1, bad, bad], &[1, 1, 0]),
            refusal,
            Some(1),
        );
    }
    // and behind the detectors of an earlier one.
    assert_refused(
        model((0.0, vec![1, 2, 1])),
        Refusal::DetectorOutOfRange,
        Some(1),
    );
    assert_refused(
        model((1.0, vec![1, 1, 2])),
        Refusal::DetectorRepeated,
        Some(1),
    );
    assert_refused(model((-0.0, vec![1])), Refusal::BadProbability, Some(2));
    assert_eq!(
        prior_of(1.5).unwrap_err().to_string(),
        "refused with 8, BadProbability, at mechanism 0: probability NaN, below 0 or above 1"
    );
}

/// Before 10, and behind 1; `tests/clip.rs` has the calls themselves.
#[test]
fn refusal_9() {
    let graph = model_g();
    let good = RelayState::new(&graph);
    for clip in BAD_CLIPS {
        let refusal = Refusal::BadClip;
        assert_refused(new(|config| config.clip = Some(clip)), refusal, None);
        for alpha in [1.0, 0.0, f64::NAN] {
            let config = RelayConfig {
                alpha,
                clip: Some(clip),
                ..RelayConfig::default()
            };
            assert_refused(config.check(3), refusal, None);
            let answer = config.check(MAX_MECHANISMS + 1);
            assert_refused(answer, Refusal::SizeAboveLimit, None);
            let mut state = good.clone();
            let clip = Some(clip);
            assert_refused(
                iteration(&graph, Flooding, alpha, clip, &[], &[2], &[0], &mut state),
                refusal,
                None,
            );
            assert_eq!(state, good);
        }
    }
    assert_eq!(
        new(|config| config.clip = Some(0.0))
            .unwrap_err()
            .to_string(),
        "refused with 9, BadClip: clip not finite or not above 0"
    );
    for clip in [5e-324, f64::MIN_POSITIVE, 30.0, f64::MAX] {
        new(|config| config.clip = Some(clip)).unwrap();
        let config = RelayConfig {
            alpha: 0.0,
            clip: Some(clip),
            ..RelayConfig::default()
        };
        assert_refused(config.check(3), Refusal::BadAlpha, None);
    }
}

#[test]
fn refusals_10_to_16() {
    let above = MAX_COUNT + 1;
    for alpha in [0.0, -1.0, f64::NAN, f64::INFINITY] {
        assert_refused(new(|config| config.alpha = alpha), Refusal::BadAlpha, None);
    }
    assert_refused(
        new(|config| config.gamma0 = f64::NAN),
        Refusal::BadGamma0,
        None,
    );
    for pre in [0, above] {
        assert_refused(
            new(|config| config.pre_iterations = pre),
            Refusal::BadIterations,
            None,
        );
    }
    assert_refused(
        min_sum(&model_g(), &[1, 0], above, 1.0, false),
        Refusal::BadIterations,
        None,
    );
    for legs in [above, usize::MAX] {
        assert_refused(
            new(|config| config.num_legs = legs),
            Refusal::TooManyLegs,
            None,
        );
    }
    for iterations in [0, above] {
        assert_refused(
            new(|config| config.leg_iterations = iterations),
            Refusal::BadLegIterations,
            None,
        );
    }
    for range in [(0.5, 0.25), (f64::NAN, 1.0), (-f64::MAX, f64::MAX)] {
        assert_refused(
            new(|config| config.gamma_range = range),
            Refusal::BadGammaInterval,
            None,
        );
    }
    assert_refused(
        new(|config| config.stop_after_converged = 0),
        Refusal::BadStop,
        None,
    );
}

#[test]
fn refusals_17_to_19() {
    let explicit =
        |sets, gammas| new(|config| config.gamma_source = GammaSource::Explicit { sets, gammas });
    explicit(2, vec![0.5; 6]).unwrap();
    assert_refused(explicit(0, vec![]), Refusal::NoGammaSets, None);
    assert_refused(explicit(2, vec![0.5; 5]), Refusal::GammaSetsLength, None);
    assert_refused(
        explicit(MAX_COUNT + 1, vec![0.5; 3 * (MAX_COUNT + 1)]),
        Refusal::GammaSetsLength,
        None,
    );
    let mut gammas = vec![0.5; 6];
    gammas[4] = f64::INFINITY;
    assert_refused(explicit(2, gammas), Refusal::GammaNotFinite, Some(4));
}

#[test]
fn refusals_20_and_21() {
    let graph = model_g();
    let mut decoder = RelayBp::new(graph.clone(), plain(Flooding, 2)).unwrap();
    let mut state = RelayState::new(&graph);
    let mut step = |syndrome: &[u8]| {
        let order = [0, 1];
        iteration(
            &graph, Flooding, 1.0, None, &[0.0; 3], syndrome, &order, &mut state,
        )
    };
    for syndrome in [&[1][..], &[1, 0, 0]] {
        let refusal = Refusal::SyndromeLength;
        assert_refused(decoder.decode(syndrome, 0), refusal, None);
        assert_refused(min_sum(&graph, syndrome, 1, 1.0, false), refusal, None);
        assert_refused(step(syndrome), refusal, None);
    }
    let refusal = Refusal::SyndromeNotBinary;
    assert_refused(decoder.decode(&[1, 2], 0), refusal, Some(1));
    assert_refused(step(&[1, 2]), refusal, Some(1));
    // Beliefs take any byte that is not 0 for 1.
    assert_eq!(
        min_sum(&graph, &[2, 0], 1, 1.0, false),
        min_sum(&graph, &[1, 0], 1, 1.0, false)
    );
}

#[test]
fn refusal_22() {
    let graph = model_g();
    let other = BpGraph::from_sparse(2, &[(4.0, [0])]).unwrap();
    let mut scratch = BpScratch::new(&other);
    let mut posterior = [9.0; 3];
    assert_refused(
        min_sum_into(&graph, &[1, 0], 1, 1.0, false, &mut scratch, &mut posterior),
        Refusal::LentListLength,
        None,
    );
    let mut scratch = BpScratch::new(&graph);
    assert_refused(
        min_sum_into(
            &graph,
            &[1, 0],
            1,
            1.0,
            false,
            &mut scratch,
            &mut posterior[..2],
        ),
        Refusal::LentListLength,
        None,
    );
    assert_eq!(posterior, [9.0; 3]);

    let step = |gamma: &[f64], state: &mut RelayState| {
        iteration(&graph, Flooding, 1.0, None, gamma, &[1, 0], &[0, 1], state)
    };
    let refusal = Refusal::LentListLength;
    assert_refused(step(&[0.0; 3], &mut RelayState::new(&other)), refusal, None);
    assert_refused(step(&[0.0; 2], &mut RelayState::new(&graph)), refusal, None);
    let mut short = RelayState::new(&graph);
    short.c_to_v.pop();
    let before = short.clone();
    assert_refused(step(&[0.0; 3], &mut short), refusal, None);
    assert_eq!(short, before);
}

#[test]
fn refusals_23_and_24() {
    let graph = model_g();
    let mut flooding = RelayBp::new(graph.clone(), plain(Flooding, 2)).unwrap();
    let mut serial = RelayBp::new(graph.clone(), plain(CheckSerial, 2)).unwrap();
    for order in [&[][..], &[0], &[0, 0], &[0, 2], &[0, 1, 1]] {
        let refusal = Refusal::OrderNotEachOnce;
        assert_refused(flooding.decode_in_order(&[1, 0], 0, order), refusal, None);
        assert_refused(serial.decode_in_order(&[1, 0], 0, order), refusal, None);
        let mut state = RelayState::new(&graph);
        assert_refused(
            iteration(
                &graph,
                Flooding,
                1.0,
                None,
                &[0.0; 3],
                &[1, 0],
                order,
                &mut state,
            ),
            refusal,
            None,
        );
    }
    assert_refused(
        serial.decode_in_order(&[1, 0], 0, &[1, 0]),
        Refusal::OrderExchanged,
        Some(0),
    );
}

#[test]
fn refusal_25() {
    let graph = model_g();
    let refused = |gamma: [f64; 3], change: fn(&mut RelayState)| {
        let mut state = RelayState::new(&graph);
        change(&mut state);
        let before = bits(&state.posterior);
        assert_refused(
            iteration(
                &graph,
                Flooding,
                1.0,
                None,
                &gamma,
                &[1, 0],
                &[0, 1],
                &mut state,
            ),
            Refusal::StateNotFinite,
            None,
        );
        assert_eq!(bits(&state.posterior), before);
    };
    refused([0.0; 3], |state| state.c_to_v[3] = f64::INFINITY);
    refused([0.0; 3], |state| state.v_to_c[3] = f64::NAN);
    refused([0.0; 3], |state| state.posterior[2] = f64::NAN);
    refused([0.0, f64::NAN, 0.0], |_| {});
}

/// A mechanism on every check, and all settings at their limits: with one edge more the formula passes 2^64 - 1. 29 is tested after
/// the others and before the work.
#[test]
fn refusal_29() {
    let all: Vec<u32> = (0..MAX_CHECKS as u32).collect();
    let hub = |more: &[u32]| {
        let mut model = vec![(2.0, all.clone())];
        model.extend(more.iter().map(|&check| (2.0, vec![check])));
        BpGraph::from_sparse(MAX_CHECKS, &model).unwrap()
    };
    let config = |schedule| RelayConfig {
        schedule,
        pre_iterations: MAX_COUNT,
        num_legs: MAX_COUNT,
        leg_iterations: MAX_COUNT,
        ..RelayConfig::default()
    };
    let limit = u128::from(u64::MAX);
    let most = MAX_COUNT + MAX_COUNT * MAX_COUNT;
    let graph = hub(&[7]);
    // What is next to it, an edge or a leg less, passes by the formula.
    assert!(stores_at(&graph, CheckSerial, most) > limit);
    assert!(stores_at(&graph, CheckSerial, most - MAX_COUNT) <= limit);
    assert_eq!(
        stores_at(&hub(&[]), CheckSerial, most),
        (1 << 64) - (1 << 32)
    );

    let syndrome = vec![0; MAX_CHECKS];
    let mut serial = RelayBp::new(graph.clone(), config(CheckSerial)).unwrap();
    let refusal = Refusal::TooManyStores;
    assert_refused(serial.decode(&syndrome, 0), refusal, None);
    assert_refused(serial.decode_in_order(&syndrome, 0, &all), refusal, None);
    assert_eq!(
        serial.decode(&syndrome, 0).unwrap_err().to_string(),
        "refused with 29, TooManyStores: a decode's message stores could pass 2^64 - 1"
    );

    // The tests before it come first.
    let mut order = all.clone();
    order.swap(MAX_CHECKS - 2, MAX_CHECKS - 1);
    let answer = serial.decode_in_order(&syndrome, 0, &order);
    let place = Some(MAX_CHECKS - 2);
    assert_refused(answer, Refusal::OrderExchanged, place);
    order[0] = 1;
    let answer = serial.decode_in_order(&syndrome, 0, &order);
    assert_refused(answer, Refusal::OrderNotEachOnce, None);
    let answer = serial.decode_in_order(&syndrome, 1 << 48, &order);
    assert_refused(answer, Refusal::ShotTooLarge, None);
    let mut not_binary = syndrome.clone();
    not_binary[9] = 2;
    let answer = serial.decode(&not_binary, 1 << 48);
    assert_refused(answer, Refusal::SyndromeNotBinary, Some(9));
    assert_refused(serial.decode(&[], 0), Refusal::SyndromeLength, None);

    // Flooding writes two messages an edge, and is far from the limit.
    let mut flooding = RelayBp::new(graph.clone(), config(Flooding)).unwrap();
    let outcome = flooding.decode(&syndrome, 0).unwrap();
    assert_eq!(outcome.total_iterations, 1);
    assert_eq!(u128::from(outcome.stores), stores_at(&graph, Flooding, 1));
}

/// Mechanism 0 sets off no check, so 1 is the first that a huge scale makes infinite.
#[test]
fn refusal_30() {
    let graph = BpGraph::from_sparse(1, &[(4.0, vec![]), (4.0, vec![0]), (4.0, vec![0])]).unwrap();
    let huge = 1e308;
    let config = RelayConfig {
        alpha: huge,
        ..RelayConfig::default()
    };
    let mut decoder = RelayBp::new(graph.clone(), config).unwrap();
    assert_refused(decoder.decode(&[1], 0), Refusal::NonFinite, Some(1));

    let mut posterior = [9.0; 3];
    let mut scratch = BpScratch::new(&graph);
    assert_refused(
        min_sum_into(&graph, &[1], 1, huge, false, &mut scratch, &mut posterior),
        Refusal::NonFinite,
        Some(1),
    );
    assert_eq!(bits(&posterior), bits(&[0.0; 3]));

    let mut state = RelayState::new(&graph);
    assert_refused(
        iteration(
            &graph,
            Flooding,
            huge,
            None,
            &[0.0; 3],
            &[1],
            &[0],
            &mut state,
        ),
        Refusal::NonFinite,
        Some(1),
    );
    assert_eq!(bits(&state.posterior), bits(&[0.0; 3]));
    assert_eq!(bits(&state.c_to_v), bits(&[0.0; 2]));
    assert_eq!(bits(&state.v_to_c), bits(&[0.0; 2]));
}
