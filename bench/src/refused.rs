//! What a call's tests take: the time of a call that only its last test refuses. It has then done all of them, has run nothing and
//! written nothing. And what a call takes on a model of nothing: its own arrays, and the way in and out.

use crate::decodes::{self, sets};
use crate::models::{EDGES, Sized, nothing, sized};
use crate::timing::{Row, Work, timed};
use proved::{Answer, Beliefs, Clip, Decode, Iteration, Lists, Run, Shot, Step};
use std::hint::black_box;

/// Good lists and arguments for every call over a graph.
pub struct Lent {
    sized: Sized,
    lists: Lists,
    priors: Vec<f64>,
    syndrome: Vec<u8>,
    order: Vec<u32>,
    gammas: Vec<f64>,
    beliefs: Beliefs,
    step: Step,
    decode: Decode,
}

impl Lent {
    /// The order is one that every decode takes, and not the index order where the model has another.
    pub fn of(sized: Sized) -> Self {
        let size = sized.size;
        let lists = sized.lists();
        Self {
            syndrome: vec![0; size.checks],
            order: sized.kept_order(&lists),
            lists,
            priors: sized.priors.clone(),
            gammas: sets(size.mechanisms).concat(),
            beliefs: Beliefs::filled(size, 0.0),
            step: Step {
                c_to_v: vec![0.0; size.edges],
                v_to_c: vec![0.0; size.edges],
                posterior: vec![0.0; size.mechanisms],
                bias: vec![0.0; size.mechanisms],
            },
            decode: Decode::filled(size, decodes::settings(false).num_legs + 1, 0),
            sized,
        }
    }

    fn build_sparse(&mut self) -> Answer {
        let Sized { size, priors, .. } = &self.sized;
        let (offsets, detectors) = (&self.sized.offsets, &self.sized.detectors);
        proved::build_sparse(
            *size,
            black_box(priors),
            offsets,
            detectors,
            &mut self.lists,
        )
    }

    fn build_sparse_probabilities(&mut self) -> Answer {
        let Sized { size, model, .. } = &self.sized;
        let (offsets, detectors) = (&self.sized.offsets, &self.sized.detectors);
        proved::build_sparse_probabilities(
            *size,
            black_box(&model.probabilities),
            offsets,
            detectors,
            &mut self.priors,
            &mut self.lists,
        )
    }

    fn check_graph(&mut self) -> Answer {
        let Sized { size, priors, .. } = &self.sized;
        proved::check_graph(*size, black_box(priors), &self.lists)
    }

    fn beliefs(&mut self) -> Answer {
        let Sized { size, priors, .. } = &self.sized;
        let run = Run {
            syndrome: &self.syndrome,
            iterations: 1,
            scale: 0.75,
            serial: false,
        };
        proved::beliefs(
            *size,
            black_box(priors),
            &self.lists,
            run,
            &mut self.beliefs,
        )
    }

    fn iteration(&mut self) -> Answer {
        let Sized { size, priors, .. } = &self.sized;
        let asked = Iteration {
            serial: false,
            alpha: 1.0,
            clip: Clip::OFF,
            gamma: &self.gammas[..size.mechanisms],
            syndrome: &self.syndrome,
            order: &self.order,
        };
        proved::iteration(*size, black_box(priors), &self.lists, asked, &mut self.step)
    }

    fn decode(&mut self, serial: bool, in_order: bool) -> Answer {
        let Sized { size, priors, .. } = &self.sized;
        let shot = Shot {
            gammas: &self.gammas,
            syndrome: &self.syndrome,
            seed: 1,
            order: in_order.then_some(&self.order),
        };
        let settings = decodes::settings(serial);
        proved::decode(
            *size,
            black_box(priors),
            &self.lists,
            settings,
            shot,
            &mut self.decode,
        )
    }
}

pub fn run() -> Vec<Row> {
    let mut rows = Vec::new();
    for &(call, way, spoil, number, ask) in SUBJECTS {
        for edges in EDGES {
            let mut lent = Lent::of(sized(edges));
            spoil(&mut lent);
            rows.push(time(call, way, &mut lent, number, ask));
        }
    }
    for &(call, ask) in GOOD {
        rows.push(time(call, "on nothing", &mut Lent::of(nothing()), 0, ask));
    }
    rows
}

/// A call over what is lent.
type Call = fn(&mut Lent) -> Answer;

/// A call and its way; what spoils it for its last test; that test's number, 0 where the call is all tests; and the call.
type Subject = (&'static str, &'static str, fn(&mut Lent), u64, Call);

/// The last detector repeats the one before it.
fn repeat_last(lent: &mut Lent) {
    let last = lent.sized.detectors.len() - 1;
    lent.sized.detectors[last] = lent.sized.detectors[last - 1];
}

const SUBJECTS: &[Subject] = &[
    (
        "build_sparse",
        "refused with 6",
        repeat_last,
        6,
        Lent::build_sparse,
    ),
    (
        "build_sparse_probabilities",
        "refused with 6",
        repeat_last,
        6,
        Lent::build_sparse_probabilities,
    ),
    ("check_graph", "passed", |_| {}, 0, Lent::check_graph),
    (
        "beliefs",
        "refused with 22",
        |lent| lent.beliefs.v_to_c.push(0.0),
        22,
        Lent::beliefs,
    ),
    (
        "iteration",
        "refused with 25",
        |lent| {
            let last = lent.sized.size.mechanisms - 1;
            lent.gammas[last] = f64::NAN;
        },
        25,
        Lent::iteration,
    ),
    (
        "decode",
        "refused with 22",
        |lent| lent.decode.v_to_c.push(0.0),
        22,
        |lent| lent.decode(false, false),
    ),
    // The last check named is one named before.
    (
        "decode_in_order",
        "refused with 23",
        |lent| {
            let last = lent.order.len() - 1;
            lent.order[last] = lent.order[0];
        },
        23,
        |lent| lent.decode(false, true),
    ),
    (
        "decode_in_order",
        "refused with 24",
        |lent| lent.order = lent.sized.late_order(&lent.lists),
        24,
        |lent| lent.decode(true, true),
    ),
];

/// The calls, with nothing to refuse.
pub const GOOD: &[(&str, Call)] = &[
    ("build_sparse", Lent::build_sparse),
    (
        "build_sparse_probabilities",
        Lent::build_sparse_probabilities,
    ),
    ("check_graph", Lent::check_graph),
    ("beliefs", Lent::beliefs),
    ("iteration", Lent::iteration),
    ("decode", |lent| lent.decode(false, false)),
    ("decode_in_order", |lent| lent.decode(true, true)),
];

fn time(call: &'static str, way: &'static str, lent: &mut Lent, number: u64, ask: Call) -> Row {
    let runs = lent.sized.runs();
    let work = Work {
        call,
        way,
        edges: lent.sized.size.edges,
        iterations: None,
        runs,
    };
    work.alone(&mut || {
        timed(|| {
            for _ in 0..runs {
                let answer = ask(black_box(lent));
                assert_eq!(answer.err().map_or(0, |(number, _)| number), number);
            }
        })
    })
}
