//! Priors of probabilities, and building from probabilities. `priors_of` tests what it is handed and leaves each prior as a float and as a whole
//! number; beside it stands the Rust's expression with its cut alone, over the same list and into a list that is kept. A row of priors has as
//! many probabilities as another has edges. Building allocates nothing here; the Rust allocates its lists. Both test the model, and both take
//! the logarithm of each probability.

use crate::building::work;
use crate::models::{EDGES, Sized, sized};
use crate::timing::{Row, timed};
use oracle::exact::bp::BpGraph;
use oracle::splitmix::SplitMix64;
use pecos_bp_open::priors_into;
use std::hint::black_box;

/// More than a processor learns by heart, and as many as a model may have.
const COUNT: usize = 65_536;

type Draw = fn(&mut SplitMix64) -> f64;

const SORTS: [(&str, Draw); 3] = [
    ("p uniform", SplitMix64::unit),
    ("p up to 0.01", |random| 0.01 * random.unit()),
    ("p log-uniform", |random| {
        (-40.0 * random.unit() * std::f64::consts::LN_2).exp() // from 2^-40
    }),
];

pub fn run() -> Vec<Row> {
    let mut rows: Vec<Row> = SORTS.map(priors).into();
    rows.push(single(SORTS[1]));
    rows.extend(EDGES.map(|edges| sparse(&sized(edges))));
    rows
}

fn drawn(draw: Draw) -> Vec<f64> {
    let mut random = SplitMix64::new(17);
    (0..COUNT).map(|_| draw(&mut random)).collect()
}

fn priors((way, draw): (&'static str, Draw)) -> Row {
    let probabilities = drawn(draw);
    let (mut theirs, mut ours, mut scaled) = (vec![0.0; COUNT], vec![0.0; COUNT], vec![0; COUNT]);
    work("priors_of", way, COUNT).beside(
        &mut || timed(|| priors_into(black_box(&probabilities), black_box(&mut theirs))),
        &mut || {
            timed(|| {
                let (ours, scaled) = (black_box(&mut ours), black_box(&mut scaled));
                let answer = proved::priors_of(black_box(&probabilities), ours, scaled);
                assert_eq!(answer, Ok(()));
            })
        },
    )
}

/// A call for each.
fn single((way, draw): (&'static str, Draw)) -> Row {
    let probabilities = drawn(draw);
    let mut theirs = vec![0.0; COUNT];
    work("prior_of", way, COUNT).beside(
        &mut || timed(|| priors_into(black_box(&probabilities), black_box(&mut theirs))),
        &mut || {
            timed(|| {
                for (mechanism, &p) in black_box(&probabilities).iter().enumerate() {
                    let (mut prior, mut scaled) = ([0.0], [0]);
                    let answer = proved::prior_of(p, mechanism, &mut prior, &mut scaled);
                    assert_eq!(answer, Ok(()));
                    black_box((prior, scaled));
                }
            })
        },
    )
}

fn sparse(sized: &Sized) -> Row {
    let dem = sized.model.dem();
    let mut lists = sized.lists();
    let mut priors = sized.priors.clone();
    work("build_sparse_probabilities", "", sized.size.edges).beside(
        &mut || {
            timed(|| {
                black_box(BpGraph::from_sparse_dem(black_box(&dem)).expect("the model builds"));
            })
        },
        &mut || {
            timed(|| {
                let answer = proved::build_sparse_probabilities(
                    sized.size,
                    black_box(&sized.model.probabilities),
                    &sized.offsets,
                    &sized.detectors,
                    black_box(&mut priors),
                    black_box(&mut lists),
                );
                assert_eq!(answer, Ok(()));
            })
        },
    )
}
