//! Runs of min-sum, 20 iterations. The port tests the lent graph first and clears its work lists after, in the time that is
//! taken; the Rust's graph was tested as it was built.

use crate::models::{EDGES, sized};
use crate::timing::{Row, Work, timed};
use oracle::bits::bits;
use oracle::exact::bp::{BpScratch, min_sum_bp_into};
use oracle::exact::drive;
use proved::{Beliefs, Run};
use std::hint::black_box;

const ITERATIONS: usize = 20;
const SCALE: f64 = 0.75;

pub fn run() -> Vec<Row> {
    let mut rows = Vec::new();
    for serial in [false, true] {
        rows.extend(EDGES.into_iter().map(|edges| beliefs(edges, serial)));
    }
    rows
}

fn beliefs(edges: usize, serial: bool) -> Row {
    let sized = sized(edges);
    let syndromes = sized.syndromes(100);
    let graph = drive::sparse_graph(&sized.model).expect("the model builds");
    let mut scratch = BpScratch::new(&graph);
    let mut posterior = vec![0.0; sized.size.mechanisms];
    let lists = sized.lists();
    let mut ours = Beliefs::filled(sized.size, 0.0);
    let work = Work {
        call: "beliefs",
        way: if serial { "serial" } else { "not serial" },
        edges,
        iterations: Some(ITERATIONS as f64),
        runs: syndromes.len(),
    };
    let row = work.beside(
        &mut || {
            timed(|| {
                for syndrome in &syndromes {
                    min_sum_bp_into(
                        black_box(&graph),
                        syndrome,
                        ITERATIONS,
                        SCALE,
                        serial,
                        &mut scratch,
                        black_box(&mut posterior),
                    )
                    .expect("the beliefs are finite");
                }
            })
        },
        &mut || {
            timed(|| {
                for syndrome in &syndromes {
                    let run = Run {
                        syndrome,
                        iterations: ITERATIONS,
                        scale: SCALE,
                        serial,
                    };
                    let answer = proved::beliefs(
                        sized.size,
                        black_box(&sized.priors),
                        &lists,
                        run,
                        black_box(&mut ours),
                    );
                    assert_eq!(answer, Ok(()));
                }
            })
        },
    );
    assert_eq!(bits(&posterior), bits(&ours.posterior));
    row
}
