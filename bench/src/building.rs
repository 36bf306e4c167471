//! Building graphs. The Rust allocates its lists and takes the logarithm of each probability; the port writes into lists
//! that the caller keeps and is handed the log ratios. Both test the model.

use crate::models::{EDGES, HUBS, Sized, hub, sized, spread};
use crate::timing::{Row, Work, timed};
use oracle::exact::bp::BpGraph;
use pecos_decoder_core::dem::{DemCheckMatrix, Matrix};
use proved::Size;
use std::hint::black_box;

/// Edges of the dense rows, and how large the matrix is: checks times mechanisms.
const DENSE: [(usize, &str); 3] = [
    (512, "14 kB matrix"),
    (4096, "931 kB matrix"),
    (24_000, "32 MB matrix"),
];

/// A mechanism's detectors, in an order that repeats are looked for in.
type Order = fn(&mut [u32]);

/// One mechanism of many detectors, which rise to begin with.
const ORDERS: [(&str, Order); 3] = [
    ("hub, rising", |_| {}),
    ("hub, last two exchanged", |detectors| {
        let last = detectors.len() - 1;
        detectors.swap(last - 1, last);
    }),
    ("hub, falling", <[u32]>::reverse),
];

pub fn run() -> Vec<Row> {
    let mut rows: Vec<Row> = EDGES.map(|edges| sparse("", &sized(edges))).into();
    rows.push(sparse("16 of 65,536 checks", &spread()));
    for (way, order) in ORDERS {
        rows.extend(HUBS.map(|detectors| sparse(way, &hub(detectors, order))));
    }
    rows.extend(DENSE.map(dense));
    rows
}

/// One run of a call.
pub fn work(call: &'static str, way: &'static str, edges: usize) -> Work {
    Work {
        call,
        way,
        edges,
        iterations: None,
        runs: 1,
    }
}

fn sparse(way: &'static str, sized: &Sized) -> Row {
    let dem = sized.model.dem();
    let mut lists = sized.lists();
    work("build_sparse", way, sized.size.edges).beside(
        &mut || {
            timed(|| {
                black_box(BpGraph::from_sparse_dem(black_box(&dem)).expect("the model builds"));
            })
        },
        &mut || {
            timed(|| {
                let answer = proved::build_sparse(
                    sized.size,
                    black_box(&sized.priors),
                    &sized.offsets,
                    &sized.detectors,
                    black_box(&mut lists),
                );
                assert_eq!(answer, Ok(()));
            })
        },
    )
}

fn dense((edges, way): (usize, &'static str)) -> Row {
    let sized = sized(edges);
    let Size {
        checks, mechanisms, ..
    } = sized.size;
    let mut matrix = vec![0; checks * mechanisms];
    for (mechanism, detectors) in sized.model.detectors.iter().enumerate() {
        for &check in detectors {
            matrix[check as usize * mechanisms + mechanism] = 1;
        }
    }
    let dcm = DemCheckMatrix {
        check_matrix: Matrix::new(checks, mechanisms, matrix.clone()),
        error_priors: sized.model.probabilities.clone(),
        num_detectors: checks,
    };
    let mut lists = sized.lists();
    work("build_dense", way, edges).beside(
        &mut || {
            timed(|| {
                black_box(BpGraph::from_dcm(black_box(&dcm)));
            })
        },
        &mut || {
            timed(|| {
                let answer = proved::build_dense(
                    checks,
                    mechanisms,
                    black_box(&sized.priors),
                    &matrix,
                    black_box(&mut lists),
                );
                assert_eq!(answer, Ok(()));
            })
        },
    )
}
