//! How many messages a decode says that it wrote: what the formula says, on every graph, schedule and order; and none where it is refused.

mod common;

use chowderkite::{BpGraph, RelayBp, RelayConfig, Schedule};
use chowderkite_sys::calls;
use chowderkite_sys::lists::{DecodeLists, Size};
use common::{lent, model_g, plain, stores_at, Random};
use Schedule::{CheckSerial, Flooding};

const SCHEDULES: [Schedule; 2] = [Flooding, CheckSerial];

fn settings(schedule: Schedule) -> RelayConfig {
    RelayConfig {
        schedule,
        pre_iterations: 5,
        num_legs: 4,
        leg_iterations: 3,
        stop_after_converged: 2,
        ..RelayConfig::default()
    }
}

/// Mechanisms of none to all of the checks.
fn uneven(random: &mut Random, checks: usize, mechanisms: usize) -> BpGraph {
    let model: Vec<(f64, Vec<u32>)> = (0..mechanisms)
        .map(|_| {
            let mut detectors = random.permutation(checks);
            detectors.truncate(random.below(checks + 1));
            (1.0 + random.below(4096) as f64 / 1024.0, detectors)
        })
        .collect();
    BpGraph::from_sparse(checks, &model).unwrap()
}

/// Graphs without checks, mechanisms or edges among them.
fn graphs(random: &mut Random) -> Vec<BpGraph> {
    let silent: Vec<(f64, Vec<u32>)> = vec![(2.0, vec![]), (3.0, vec![])];
    let star: Vec<u32> = (0..40).collect();
    let mut all = vec![
        BpGraph::from_sparse::<[u32; 0]>(0, &[]).unwrap(),
        BpGraph::from_sparse::<[u32; 0]>(3, &[]).unwrap(),
        BpGraph::from_sparse(0, &silent).unwrap(),
        BpGraph::from_sparse(2, &silent).unwrap(),
        BpGraph::from_sparse(40, &[(2.0, star.clone())]).unwrap(),
        BpGraph::from_sparse(40, &[(2.0, vec![7]), (2.0, star), (2.0, vec![])]).unwrap(),
        model_g(),
        random.model(20, 50),
        random.model(200, 120),
    ];
    for _ in 0..20 {
        let (checks, mechanisms) = (1 + random.below(12), 1 + random.below(12));
        all.push(uneven(random, checks, mechanisms));
    }
    all
}

/// Of G, which has four edges and mechanisms of degree 1, 2 and 1.
#[test]
fn by_hand() {
    for (schedule, each) in [(Flooding, 8), (CheckSerial, 10)] {
        for iterations in [1, 2] {
            let mut decoder = RelayBp::new(model_g(), plain(schedule, iterations)).unwrap();
            let outcome = decoder.decode(&[1, 0], 0).unwrap();
            assert_eq!(outcome.total_iterations, iterations);
            assert_eq!(outcome.stores, iterations as u64 * each);
        }
    }
    // One check, and one mechanism on it: each writes its message.
    for schedule in SCHEDULES {
        let graph = BpGraph::from_sparse(1, &[(2.0, [0])]).unwrap();
        let mut decoder = RelayBp::new(graph, plain(schedule, 1)).unwrap();
        assert_eq!(decoder.decode(&[1], 0).unwrap().stores, 2);
    }
}

#[test]
fn by_the_formula() {
    let mut random = Random::new(11);
    let (mut converged, mut not, mut several) = (0, 0, 0);
    for graph in graphs(&mut random) {
        for schedule in SCHEDULES {
            let mut decoder = RelayBp::new(graph.clone(), settings(schedule)).unwrap();
            for seed in 0..20 {
                let syndrome: Vec<u8> = (0..graph.check_count())
                    .map(|_| u8::from(random.below(3) == 0))
                    .collect();
                let outcome = decoder.decode(&syndrome, seed).unwrap();
                let wanted = stores_at(&graph, schedule, outcome.total_iterations);
                assert_eq!(u128::from(outcome.stores), wanted);
                converged += u32::from(outcome.converged);
                not += u32::from(!outcome.converged);
                several += u32::from(outcome.executed_legs > 1);
            }
        }
    }
    assert!(
        converged > 50 && not > 50 && several > 50,
        "{converged}, {not} and {several}"
    );
}

/// An order that is taken writes as many. Checks in two halves share nothing across, so these orders keep what 24 asks for.
#[test]
fn in_other_orders() {
    let mut random = Random::new(12);
    let half = random.model(10, 14);
    let of_half = |mechanism: usize, shift: u32| -> (f64, Vec<u32>) {
        let detectors = half.detectors(mechanism).iter();
        let prior = half.prior_llrs()[mechanism];
        (prior, detectors.map(|check| 2 * check + shift).collect())
    };
    let model: Vec<_> = (0..28).map(|m| of_half(m / 2, (m % 2) as u32)).collect();
    let graph = BpGraph::from_sparse(20, &model).unwrap();
    let (even, odd): (Vec<u32>, Vec<u32>) = (0..20).partition(|check| check % 2 == 0);
    let orders = [[even.clone(), odd.clone()].concat(), [odd, even].concat()];
    for schedule in SCHEDULES {
        let mut decoder = RelayBp::new(graph.clone(), settings(schedule)).unwrap();
        for seed in 0..50 {
            let happened = random.below(8);
            let syndrome = random.syndrome(&graph, happened);
            let stores = decoder.decode(&syndrome, seed).unwrap().stores;
            for order in &orders {
                let outcome = decoder.decode_in_order(&syndrome, seed, order).unwrap();
                let wanted = stores_at(&graph, schedule, outcome.total_iterations);
                assert_eq!(outcome.stores, stores);
                assert_eq!(u128::from(outcome.stores), wanted);
            }
        }
    }
}

/// A decoder that is used again counts from nothing, after a decode and after a refusal.
#[test]
fn each_decode_by_itself() {
    let mut decoder = RelayBp::new(model_g(), plain(CheckSerial, 2)).unwrap();
    for _ in 0..3 {
        assert_eq!(decoder.decode(&[1, 0], 0).unwrap().stores, 20);
        assert_eq!(decoder.decode(&[2, 0], 0).unwrap_err().number(), 21);
        let exchanged = decoder.decode_in_order(&[1, 0], 0, &[1, 0]);
        assert_eq!(exchanged.unwrap_err().number(), 24);
        assert_eq!(decoder.decode(&[0, 0], 0).unwrap().stores, 10);
    }
}

/// The call's own counts: a refusal leaves all four as they were, but for 30, which zeroes them.
#[test]
fn none_where_refused() {
    let graph = model_g();
    let size = Size {
        checks: graph.check_count(),
        mechanisms: graph.mechanism_count(),
        edges: graph.edge_count(),
    };
    let lent = lent(&graph);
    let decode = |alpha: f64, syndrome: &[u8], order: &[u32]| {
        let settings = calls::Settings {
            schedule: 1,
            alpha,
            clip_on: 0,
            clip: 0.0,
            gamma0: 0.0,
            pre_iterations: 2,
            num_legs: 0,
            leg_iterations: 0,
            gamma_low: 0.0,
            gamma_high: 0.0,
            stop_after_converged: 1,
            source: calls::BY_SHOT,
            sets: 0,
            gammas: &[],
        };
        let mut lists = DecodeLists::filled(size, 1, 9);
        let code = calls::decode_in_order(lent, settings, syndrome, 0, order, lists.written());
        (code % 65_536, lists.counts)
    };
    assert_eq!(decode(1.0, &[1, 0], &[0, 1]), (0, [1, 1, 2, 20]));
    assert_eq!(decode(-1.0, &[1, 0], &[0, 1]), (10, [9; 4]));
    assert_eq!(decode(1.0, &[1], &[0, 1]), (20, [9; 4]));
    assert_eq!(decode(1.0, &[1, 2], &[0, 1]), (21, [9; 4]));
    assert_eq!(decode(1.0, &[1, 0], &[0, 0]), (23, [9; 4]));
    assert_eq!(decode(1.0, &[1, 0], &[1, 0]), (24, [9; 4]));
    assert_eq!(decode(1e308, &[1, 0], &[0, 1]), (30, [0; 4]));
}
