//! The reference's twelve small runs.

mod common;

use chowderkite::{
    iteration, min_sum, BpGraph, LegOutcome, RelayBp, RelayOutcome, RelayState, Schedule,
};
use common::{bits, model_g, plain};
use Schedule::{CheckSerial, Flooding};

fn decode(graph: BpGraph, schedule: Schedule, pre: usize, syndrome: &[u8]) -> RelayOutcome {
    let mut decoder = RelayBp::new(graph, plain(schedule, pre)).unwrap();
    decoder.decode(syndrome, 0).unwrap()
}

/// Converged at 2, bits 100, weight 4, posterior -4,4,4; and as many messages written.
fn assert_as_r3(outcome: &RelayOutcome, stores: u64) {
    assert!(outcome.converged);
    assert_eq!(outcome.correction, [1, 0, 0]);
    assert_eq!(outcome.weight, Some(4.0));
    assert_eq!(bits(&outcome.posterior), bits(&[-4.0, 4.0, 4.0]));
    assert_eq!((outcome.executed_legs, outcome.total_iterations), (1, 2));
    assert_eq!(outcome.stores, stores);
    let leg = LegOutcome::Converged {
        weight: 4.0,
        iterations: 2,
        correction: vec![1, 0, 0],
    };
    assert_eq!(outcome.legs, [leg]);
}

fn single(prior: f64) -> BpGraph {
    BpGraph::from_sparse(1, &[(prior, [0])]).unwrap()
}

#[test]
fn r1_graph() {
    let graph = model_g();
    let lists = graph.lists();
    assert_eq!(lists.check_offset, [0, 2, 4]);
    assert_eq!(lists.var_offset, [0, 1, 3, 4]);
    assert_eq!(lists.var_message[1..3], [1, 2]);
    assert_eq!(
        BpGraph::from_dense(2, vec![4.0; 3], &[1, 1, 0, 0, 1, 1]).unwrap(),
        graph
    );
}

#[test]
fn r2_not_converged() {
    let outcome = decode(model_g(), Flooding, 1, &[1, 0]);
    assert!(!outcome.converged);
    assert_eq!(outcome.weight, None);
    assert_eq!(bits(&outcome.posterior), bits(&[0.0, 4.0, 8.0]));
    assert_eq!(outcome.correction, [0, 0, 0]);
    assert_eq!(outcome.legs, [LegOutcome::RanOut { iterations: 1 }]);
}

#[test]
fn r3_flooding() {
    assert_as_r3(&decode(model_g(), Flooding, 2, &[1, 0]), 16);
}

#[test]
fn r4_check_serial() {
    assert_as_r3(&decode(model_g(), CheckSerial, 2, &[1, 0]), 20);
}

#[test]
fn r5_and_r6_first_serial_iteration() {
    let graph = model_g();
    for (order, posterior) in [([0, 1], [0.0, 4.0, 4.0]), ([1, 0], [-4.0, 4.0, 8.0])] {
        let mut state = RelayState::new(&graph);
        iteration(
            &graph,
            CheckSerial,
            1.0,
            None,
            &[0.0; 3],
            &[1, 0],
            &order,
            &mut state,
        )
        .unwrap();
        assert_eq!(bits(&state.posterior), bits(&posterior));
    }
}

#[test]
fn r6_decode_refuses() {
    let mut decoder = RelayBp::new(model_g(), plain(CheckSerial, 2)).unwrap();
    let error = decoder.decode_in_order(&[1, 0], 0, &[1, 0]).unwrap_err();
    assert_eq!((error.number(), error.place()), (24, Some(0)));
}

#[test]
fn r7_flooding_in_another_order() {
    let mut decoder = RelayBp::new(model_g(), plain(Flooding, 2)).unwrap();
    assert_as_r3(&decoder.decode_in_order(&[1, 0], 0, &[1, 0]).unwrap(), 16);
}

#[test]
fn r8_min_sum() {
    let beliefs = min_sum(&model_g(), &[1, 0], 1, 1.0, false).unwrap();
    assert_eq!(bits(&beliefs), bits(&[0.0, 4.0, 8.0]));
}

/// Serial, check 1 hears what mechanism 1 made of check 0's message, and tells mechanism 2 something else.
#[test]
fn serial_min_sum_is_another() {
    let beliefs = min_sum(&model_g(), &[1, 0], 1, 1.0, true).unwrap();
    assert_eq!(bits(&beliefs[..2]), bits(&[0.0, 4.0]));
    assert!(beliefs[2] < 8.0);
}

#[test]
fn r9_check_of_one_entry() {
    let outcome = decode(single(2.0), Flooding, 1, &[1]);
    assert_eq!(bits(&outcome.posterior), bits(&[-28.0]));
    assert_eq!(outcome.correction, [1]);
    let beliefs = min_sum(&single(2.0), &[1], 1, 1.0, false).unwrap();
    assert_eq!(bits(&beliefs), bits(&[2.0]));
}

#[test]
fn r10_prior_of_30() {
    let outcome = decode(single(30.0), Flooding, 1, &[1]);
    assert_eq!(bits(&outcome.posterior), bits(&[0.0]));
    assert_eq!(outcome.correction, [0]);
    assert!(!outcome.converged);
}

#[test]
fn r11_nothing_in_the_graph() {
    let empty = BpGraph::from_sparse::<[u32; 0]>(0, &[]).unwrap();
    let outcome = decode(empty, Flooding, 1, &[]);
    assert!(outcome.converged);
    assert_eq!((outcome.total_iterations, outcome.stores), (1, 0));
    assert_eq!(outcome.weight.map(f64::to_bits), Some((-0.0_f64).to_bits()));
}

#[test]
fn r12_sign_of_zero() {
    for (prior, beliefs) in [(-0.0, [-2.0, 2.0]), (0.0, [2.0, 2.0])] {
        let graph = BpGraph::from_sparse(1, &[(prior, [0]), (2.0, [0])]).unwrap();
        let found = min_sum(&graph, &[0], 1, 1.0, false).unwrap();
        assert_eq!(bits(&found), bits(&beliefs));
    }
}
