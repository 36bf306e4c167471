//! Whole decodes, converging early and never. The port tests the lent graph and the settings first and clears its work lists after, in the
//! time that is taken; the Rust's graph was tested as it was built, and its settings with the decoder.

use crate::models::{EDGES, Sized, sized};
use crate::timing::{Row, Work, timed};
use oracle::bits::bits;
use oracle::decode_cases::{Settings as CaseSettings, Source};
use oracle::exact::bp::RelayBp;
use oracle::exact::drive;
use oracle::splitmix::SplitMix64;
use oracle::stores::by_formula;
use proved::{Clip, Decode, Settings, Shot};
use std::hint::black_box;

/// Relayed legs, each with gammas of its own.
pub const LEGS: usize = 2;

/// What is decoded, and in which order of checks.
#[derive(Clone, Copy, PartialEq, Eq)]
enum Way {
    /// Few enough mechanisms happened that a leg converges at once.
    Early,
    /// A drawn syndrome: nothing makes it, or nothing that a few iterations find, so that every leg runs out.
    Never,
    /// The same in another order, by `decode_in_order`. The Rust has none, and runs in index order, which is the same outcome.
    InOrder,
}

pub fn run() -> Vec<Row> {
    let mut rows = Vec::new();
    for way in [Way::Early, Way::Never, Way::InOrder] {
        for serial in [false, true] {
            rows.extend(EDGES.into_iter().map(|edges| decodes(edges, serial, way)));
        }
    }
    rows
}

/// Gammas for the relayed legs.
pub fn sets(mechanisms: usize) -> Vec<Vec<f64>> {
    let mut random = SplitMix64::new(5);
    let set = |_| {
        (0..mechanisms)
            .map(|_| -0.24 + 0.9 * random.unit())
            .collect()
    };
    (0..LEGS).map(set).collect()
}

/// 20 iterations of leg zero and 10 of each relayed leg, at most.
pub fn settings(serial: bool) -> Settings {
    let point = CaseSettings::default_point();
    Settings {
        serial,
        alpha: point.alpha,
        clip: Clip::of(point.clip),
        gamma0: point.gamma0,
        pre_iterations: 20,
        num_legs: LEGS,
        leg_iterations: 10,
        low: point.low,
        high: point.high,
        stop: point.stop,
        source: proved::Source::Explicit(LEGS),
    }
}

/// The Rust's decoder of the same settings.
fn decoder(sized: &Sized, settings: Settings) -> RelayBp {
    let sets = sets(sized.size.mechanisms);
    let case = CaseSettings {
        serial: settings.serial,
        pre_iterations: settings.pre_iterations,
        num_legs: settings.num_legs,
        leg_iterations: settings.leg_iterations,
        source: Source::Explicit(sets.clone()),
        ..CaseSettings::default_point()
    };
    let graph = drive::sparse_graph(&sized.model).expect("the model builds");
    RelayBp::new(graph, drive::config(&case, Some(sets))).expect("the settings are good")
}

/// One mechanism in so many happened, where a decode is to converge early.
fn rarity(edges: usize) -> usize {
    if edges > 131_072 {
        10_000
    } else if edges > 24_000 {
        1000
    } else {
        100
    }
}

fn decodes(edges: usize, serial: bool, way: Way) -> Row {
    let sized = sized(edges);
    let syndromes = match way {
        Way::Early => sized.syndromes(rarity(edges)),
        Way::Never | Way::InOrder => sized.drawn(sized.runs().div_ceil(4)),
    };
    let lists = sized.lists();
    let settings = settings(serial);
    let mut decoder = decoder(&sized, settings);
    let gammas = sets(sized.size.mechanisms).concat();
    let order = (way == Way::InOrder).then(|| sized.kept_order(&lists));
    assert_ne!(order, Some(sized.index_order()));
    let shot = |syndrome| Shot {
        gammas: &gammas,
        syndrome,
        seed: 1,
        order: order.as_deref(),
    };
    let mut ours = Decode::filled(sized.size, LEGS + 1, 0);
    // Both alike, before they are timed.
    let mut total = 0;
    let mut converged = 0;
    let each = by_formula(serial, &sized.model.detectors);
    for syndrome in &syndromes {
        let theirs = decoder.decode(syndrome, 1).expect("a finite posterior");
        let shot = shot(syndrome);
        let answer = proved::decode(sized.size, &sized.priors, &lists, settings, shot, &mut ours);
        assert_eq!(answer, Ok(()));
        assert_eq!(bits(&theirs.posterior), bits(&ours.posterior));
        assert_eq!(theirs.correction, ours.correction);
        let [_, _, iterations, stores] = ours.counts;
        assert_eq!(theirs.total_iterations as u64, iterations);
        assert_eq!(u128::from(iterations) * each, u128::from(stores));
        total += theirs.total_iterations;
        converged += usize::from(theirs.converged);
    }
    let all = syndromes.len();
    match way {
        Way::Early => assert!(10 * converged >= 9 * all),
        Way::Never | Way::InOrder => assert_eq!(converged, 0),
    }
    let work = Work {
        call: if way == Way::InOrder {
            "decode_in_order"
        } else {
            "decode"
        },
        way: match (serial, way) {
            (false, Way::Early) => "Flooding, early",
            (true, Way::Early) => "CheckSerial, early",
            (false, _) => "Flooding, never",
            (true, _) => "CheckSerial, never",
        },
        edges,
        iterations: Some(total as f64 / all as f64),
        runs: all,
    };
    work.beside(
        &mut || {
            timed(|| {
                for syndrome in &syndromes {
                    black_box(decoder.decode(black_box(syndrome), 1)).expect("a finite posterior");
                }
            })
        },
        &mut || {
            timed(|| {
                for syndrome in &syndromes {
                    let answer = proved::decode(
                        sized.size,
                        black_box(&sized.priors),
                        &lists,
                        settings,
                        shot(syndrome),
                        black_box(&mut ours),
                    );
                    assert_eq!(answer, Ok(()));
                }
            })
        },
    )
}
