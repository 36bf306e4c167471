//! Single iterations of Relay. A run does five in succession, from the state in which a leg starts; that state is put back before
//! each run, outside its time. The port tests graph, order and state before each iteration and looks for what is not finite after
//! it; the Rust's updates test nothing.

use crate::decodes::sets;
use crate::models::{EDGES, sized};
use crate::timing::{Row, Work, timed};
use oracle::bits::bits;
use pecos_bp_open::{State, load, step, stepping, store};
use proved::{Clip, Iteration, Step};
use std::hint::black_box;
use std::time::Duration;

const ALPHA: f64 = 0.9;
const STEPS: usize = 5;

pub fn run() -> Vec<Row> {
    let mut rows = Vec::new();
    for serial in [false, true] {
        for by_index in [true, false] {
            rows.extend(
                EDGES
                    .into_iter()
                    .map(|edges| iterations(edges, serial, by_index)),
            );
        }
    }
    rows
}

fn iterations(edges: usize, serial: bool, by_index: bool) -> Row {
    let sized = sized(edges);
    let lists = sized.lists();
    let syndromes = sized.drawn(sized.runs());
    let gamma = sets(sized.size.mechanisms).swap_remove(0);
    let start = State {
        c_to_v: vec![0.0; edges],
        v_to_c: lists
            .check_var
            .iter()
            .map(|&mechanism| sized.priors[mechanism as usize])
            .collect(),
        posterior: sized.priors.clone(),
    };
    let order = if by_index {
        sized.index_order()
    } else {
        sized.shuffled_order()
    };
    let other = (!by_index).then_some(order.as_slice());
    let mut theirs = stepping(&sized.model.dem(), serial, ALPHA);
    let mut ours = Step {
        c_to_v: start.c_to_v.clone(),
        v_to_c: start.v_to_c.clone(),
        posterior: start.posterior.clone(),
        bias: vec![0.0; sized.size.mechanisms],
    };
    let work = Work {
        call: "iteration",
        way: match (serial, by_index) {
            (false, true) => "Flooding, index order",
            (false, false) => "Flooding, shuffled",
            (true, true) => "CheckSerial, index order",
            (true, false) => "CheckSerial, shuffled",
        },
        edges,
        iterations: Some(1.0),
        runs: syndromes.len() * STEPS,
    };
    let row = work.beside(
        &mut || {
            let mut time = Duration::ZERO;
            for syndrome in &syndromes {
                load(&mut theirs, &gamma, &start);
                time += timed(|| {
                    for _ in 0..STEPS {
                        step(black_box(&mut theirs), syndrome, other);
                    }
                });
            }
            time
        },
        &mut || {
            let mut time = Duration::ZERO;
            for syndrome in &syndromes {
                ours.c_to_v.copy_from_slice(&start.c_to_v);
                ours.v_to_c.copy_from_slice(&start.v_to_c);
                ours.posterior.copy_from_slice(&start.posterior);
                let asked = Iteration {
                    serial,
                    alpha: ALPHA,
                    clip: Clip::OFF,
                    gamma: &gamma,
                    syndrome,
                    order: &order,
                };
                time += timed(|| {
                    for _ in 0..STEPS {
                        let answer = proved::iteration(
                            sized.size,
                            black_box(&sized.priors),
                            &lists,
                            asked,
                            black_box(&mut ours),
                        );
                        assert_eq!(answer, Ok(()));
                    }
                });
            }
            time
        },
    );
    let mut left = start.clone();
    store(&theirs, &mut left);
    assert_eq!(bits(&left.c_to_v), bits(&ours.c_to_v));
    assert_eq!(bits(&left.v_to_c), bits(&ours.v_to_c));
    assert_eq!(bits(&left.posterior), bits(&ours.posterior));
    row
}
