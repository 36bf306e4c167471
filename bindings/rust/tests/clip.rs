//! The clip of check messages: what it does to a message, that off is as if there were none, and that a model with busy mechanisms, which is
//! refused with 30 without one, is decoded with one. And 9, by the calls themselves.

mod common;

use chowderkite::{
    iteration, BpGraph, DrawRule, GammaSource, RelayBp, RelayConfig, RelayOutcome, RelayState,
    Schedule,
};
use chowderkite_sys::calls;
use chowderkite_sys::lists::{DecodeLists, GraphLists, Size};
use common::{bits, model_g, outcome_bits, plain, Random, BAD_CLIPS};
use Schedule::{CheckSerial, Flooding};

const SCHEDULES: [Schedule; 2] = [Flooding, CheckSerial];

fn decode(
    graph: &BpGraph,
    config: RelayConfig,
    clip: Option<f64>,
    syndrome: &[u8],
) -> RelayOutcome {
    let config = RelayConfig { clip, ..config };
    let mut decoder = RelayBp::new(graph.clone(), config).unwrap();
    decoder.decode(syndrome, 7).unwrap()
}

/// The first messages of G's checks have the magnitude 4: check 0 sends -4, and check 1 sends 4, or under CheckSerial what mechanism 1 has left
/// of its prior.
#[test]
fn by_hand() {
    let graph = model_g();
    for (schedule, posterior) in [(Flooding, [0.0, 4.0, 8.0]), (CheckSerial, [0.0, 4.0, 4.0])] {
        for clip in [None, Some(8.0), Some(4.0)] {
            let outcome = decode(&graph, plain(schedule, 1), clip, &[1, 0]);
            assert_eq!(bits(&outcome.posterior), bits(&posterior));
        }
        for clip in [3.0, 1.0, 0.25] {
            let outcome = decode(&graph, plain(schedule, 1), Some(clip), &[1, 0]);
            let last = match schedule {
                Flooding => clip,
                CheckSerial => clip.min(4.0 - clip),
            };
            let wanted = [4.0 - clip, 4.0, 4.0 + last];
            assert_eq!(bits(&outcome.posterior), bits(&wanted));
        }
        // By a clip just below 4 it is clipped, and something is left of the prior.
        let clip = f64::from_bits(4.0_f64.to_bits() - 1);
        let outcome = decode(&graph, plain(schedule, 1), Some(clip), &[1, 0]);
        assert_eq!(outcome.posterior[0], 4.0 - clip);
        assert!(outcome.posterior[0] > 0.0);
    }
}

/// A check of one entry sends alpha times 30, and an infinite message is beyond every clip.
#[test]
fn of_one_entry() {
    let graph = BpGraph::from_sparse(1, &[(2.0, [0])]).unwrap();
    for schedule in SCHEDULES {
        for (alpha, clip, posterior) in [
            (1.0, None, -28.0),
            (1.0, Some(31.0), -28.0),
            (1.0, Some(30.0), -28.0),
            (1.0, Some(29.0), -27.0),
            (2.0, Some(60.0), -58.0),
            (2.0, Some(2.0), 0.0),
            (1e307, Some(1e307), -1e307),
            (f64::MAX, Some(5.0), -3.0),
            (f64::MAX, Some(5e-324), 2.0),
        ] {
            let config = RelayConfig {
                alpha,
                ..plain(schedule, 1)
            };
            let outcome = decode(&graph, config, clip, &[1]);
            assert_eq!(bits(&outcome.posterior), bits(&[posterior]));
        }
    }
}

/// The published point with the draw by which seed 7 comes to 30 on the models below, as in the oracle's lists.
fn point() -> RelayConfig {
    RelayConfig {
        gamma_source: GammaSource::Seeded(DrawRule::SeedXorLeg),
        ..RelayConfig::default()
    }
}

/// Three mechanisms on eight neighbouring checks each, the first of which happened, at the published point. Messages grow with each iteration,
/// and after the ninth leg a posterior is not finite; with a clip the second leg finds what happened.
#[test]
fn a_heavy_model() {
    let busy = [0..8, 1..9, 2..10].map(|checks| (4.0, checks.collect::<Vec<u32>>()));
    let graph = BpGraph::from_sparse(10, &busy).unwrap();
    let syndrome = [1, 1, 1, 1, 1, 1, 1, 1, 0, 0];
    let point = point();
    assert_eq!((point.alpha, point.clip), (1.0, None));

    let mut off = RelayBp::new(graph.clone(), point.clone()).unwrap();
    let error = off.decode(&syndrome, 7).unwrap_err();
    assert_eq!((error.number(), error.place()), (30, Some(0)));
    for (num_legs, is_refused) in [(7, false), (8, true)] {
        let config = RelayConfig {
            num_legs,
            ..point.clone()
        };
        let answer = RelayBp::new(graph.clone(), config)
            .unwrap()
            .decode(&syndrome, 7);
        assert_eq!(answer.is_err(), is_refused);
    }

    let outcome = decode(&graph, point, Some(30.0), &syndrome);
    assert!(outcome.converged);
    assert_eq!(outcome.correction, [1, 0, 0]);
    assert_eq!(outcome.weight, Some(4.0));
    assert_eq!((outcome.executed_legs, outcome.total_iterations), (2, 81));
    assert_eq!(outcome.stores, 81 * 48);
    let posterior = [-39.58783448192792, 38.276841900586874, 18.074900118704583];
    assert_eq!(bits(&outcome.posterior), bits(&posterior));
    assert_eq!(outcome.audit(&graph, &syndrome), Ok(()));
}

/// The same under CheckSerial: each mechanism on 13 of 14 checks in a ring, and the first and the third happened.
#[test]
fn a_heavy_model_under_check_serial() {
    let busy = [13, 0, 1].map(|missed| {
        let checks = (0..14).filter(|&check| check != missed);
        (4.0, checks.collect::<Vec<u32>>())
    });
    let graph = BpGraph::from_sparse(14, &busy).unwrap();
    let mut syndrome = [0; 14];
    (syndrome[1], syndrome[13]) = (1, 1);
    let config = RelayConfig {
        schedule: CheckSerial,
        ..point()
    };
    let mut off = RelayBp::new(graph.clone(), config.clone()).unwrap();
    let error = off.decode(&syndrome, 7).unwrap_err();
    assert_eq!((error.number(), error.place()), (30, Some(0)));
    let outcome = decode(&graph, config, Some(30.0), &syndrome);
    assert!(outcome.converged);
    assert_eq!(outcome.correction, [1, 0, 1]);
    assert_eq!((outcome.executed_legs, outcome.total_iterations), (7, 381));
    assert_eq!(outcome.audit(&graph, &syndrome), Ok(()));
}

/// What 30 still comes from: a clip that bounds nothing, and a gamma beyond 1, by which the bias grows whatever is sent. The second check has
/// no mechanism, so that no leg converges.
#[test]
fn what_refuses_still() {
    let busy = [0..8, 1..9, 2..10].map(|checks| (4.0, checks.collect::<Vec<u32>>()));
    let busy = BpGraph::from_sparse(10, &busy).unwrap();
    let alone = BpGraph::from_sparse(2, &[(4.0, [0])]).unwrap();
    let point = point();
    for (graph, syndrome, clip, gamma0, is_refused) in [
        (
            &busy,
            &[1, 1, 1, 1, 1, 1, 1, 1, 0, 0][..],
            f64::MAX,
            0.1,
            true,
        ),
        (&alone, &[1, 1], 1.0, 1e300, true),
        (&alone, &[1, 1], 1.0, 1.0, false),
    ] {
        let config = RelayConfig {
            clip: Some(clip),
            gamma0,
            ..point.clone()
        };
        let answer = RelayBp::new(graph.clone(), config)
            .unwrap()
            .decode(syndrome, 7);
        let refused = answer.err().map(|error| (error.number(), error.place()));
        assert_eq!(refused, is_refused.then_some((30, Some(0))));
    }
}

/// A clip that no message reaches leaves every bit as it is without one; a small one does not.
#[test]
fn never_reached_is_off() {
    let mut random = Random::new(21);
    let graph = random.model(20, 50);
    let mut others = 0;
    for schedule in SCHEDULES {
        for _ in 0..50 {
            let syndrome = random.syndrome(&graph, 6);
            let config = RelayConfig {
                schedule,
                pre_iterations: 6,
                num_legs: 5,
                leg_iterations: 4,
                ..RelayConfig::default()
            };
            let off = decode(&graph, config.clone(), None, &syndrome);
            for clip in [1e100, f64::MAX] {
                let on = decode(&graph, config.clone(), Some(clip), &syndrome);
                assert_eq!(outcome_bits(&on), outcome_bits(&off));
            }
            let on = decode(&graph, config, Some(0.5), &syndrome);
            others += u32::from(outcome_bits(&on) != outcome_bits(&off));
        }
    }
    assert!(others > 50, "{others}");
}

/// No check's message is beyond the clip after an iteration, and those of mechanisms may be.
#[test]
fn messages_are_within() {
    let mut random = Random::new(22);
    let graph = random.model(20, 50);
    let order: Vec<u32> = (0..20).collect();
    let gamma = [0.25; 50];
    for schedule in SCHEDULES {
        for clip in [5e-324, 0.125, 2.0] {
            let syndrome = random.syndrome(&graph, 6);
            let mut state = RelayState::new(&graph);
            for _ in 0..10 {
                let clip = Some(clip);
                iteration(
                    &graph, schedule, 0.9, clip, &gamma, &syndrome, &order, &mut state,
                )
                .unwrap();
            }
            assert!(state.c_to_v.iter().all(|message| message.abs() <= clip));
            assert!(state.c_to_v.iter().any(|message| message.abs() == clip));
            assert!(state.v_to_c.iter().any(|message| message.abs() > clip));
        }
    }
}

/// An order that is taken changes no bit with a clip either.
#[test]
fn orders_agree() {
    let mut random = Random::new(23);
    let graph = random.model(20, 50);
    let apart: Vec<(f64, Vec<u32>)> = (0..20).map(|check| (2.0, vec![check])).collect();
    let apart = BpGraph::from_sparse(20, &apart).unwrap();
    for (schedule, graph) in [(Flooding, &graph), (CheckSerial, &apart)] {
        let config = RelayConfig {
            schedule,
            clip: Some(0.75),
            num_legs: 3,
            leg_iterations: 4,
            ..RelayConfig::default()
        };
        let mut decoder = RelayBp::new(graph.clone(), config).unwrap();
        for _ in 0..50 {
            let syndrome = random.syndrome(graph, 6);
            let order = random.permutation(20);
            assert_eq!(
                outcome_bits(&decoder.decode_in_order(&syndrome, 7, &order).unwrap()),
                outcome_bits(&decoder.decode(&syndrome, 7).unwrap())
            );
        }
    }
}

/// G and settings of two iterations for the calls, which take lists and numbers of every kind.
struct Lent {
    size: Size,
    priors: Vec<f64>,
    lists: GraphLists,
}

impl Lent {
    fn of_g() -> Self {
        let graph = model_g();
        let lists = graph.lists().clone();
        Self {
            size: Size {
                checks: graph.check_count(),
                mechanisms: graph.mechanism_count(),
                edges: graph.edge_count(),
            },
            priors: graph.prior_llrs().to_vec(),
            lists: GraphLists {
                check_var: lists.check_var,
                check_offset: lists.check_offset,
                var_check: lists.var_check,
                var_message: lists.var_message,
                var_offset: lists.var_offset,
            },
        }
    }

    fn settings<'a>(alpha: f64, clip_on: u8, clip: f64) -> calls::Settings<'a> {
        calls::Settings {
            schedule: 0,
            alpha,
            clip_on,
            clip,
            gamma0: 0.0,
            pre_iterations: 2,
            num_legs: 0,
            leg_iterations: 0,
            gamma_low: 0.0,
            gamma_high: 0.0,
            stop_after_converged: 1,
            source: calls::BY_SHOT,
            sets: 0,
            gammas: &[],
        }
    }

    /// What all four calls answer to a clip, and the posteriors of the decodes. Where they are refused, every list must be as it was.
    fn answers(&self, alpha: f64, clip_on: u8, clip: f64) -> ([u64; 4], [Vec<f64>; 2]) {
        let graph = self.lists.graph(self.size, &self.priors);
        let settings = Self::settings(alpha, clip_on, clip);
        let fill = || DecodeLists::filled(self.size, 1, 9);
        let (mut by_index, mut in_order) = (fill(), fill());
        let syndrome = [1, 0];
        let order = [0, 1];
        let mut step = [vec![0.5; 4], vec![0.5; 4], vec![0.5; 3], vec![0.5; 3]];
        let [c_to_v, v_to_c, posterior, bias] = &mut step;
        let lists = calls::IterationLists {
            c_to_v,
            v_to_c,
            posterior,
            bias,
        };
        let asked = calls::Iteration {
            schedule: 0,
            alpha,
            clip_on,
            clip,
            gamma: &[0.0; 3],
            syndrome: &syndrome,
            order: &order,
        };
        let codes = [
            calls::check_settings(settings, self.size.mechanisms),
            calls::decode(graph, settings, &syndrome, 0, by_index.written()),
            calls::decode_in_order(graph, settings, &syndrome, 0, &order, in_order.written()),
            calls::iteration(graph, asked, lists),
        ];
        for (code, left) in codes[1..3].iter().zip([&by_index, &in_order]) {
            if *code != 0 {
                assert_eq!(format!("{left:?}"), format!("{:?}", fill()));
            }
        }
        if codes[3] != 0 {
            assert!(step.iter().flatten().all(|value| *value == 0.5));
        }
        (codes, [by_index.posterior, in_order.posterior])
    }
}

#[test]
fn refusal_9_of_the_calls() {
    let good = Lent::of_g();
    for clip in BAD_CLIPS {
        for clip_on in [1, 2, 255] {
            assert_eq!(good.answers(1.0, clip_on, clip).0, [9; 4]);
            // Before 10,
            assert_eq!(good.answers(0.0, clip_on, clip).0, [9; 4]);
            assert_eq!(good.answers(f64::NAN, clip_on, clip).0, [9; 4]);
        }
        // and not where it is off.
        assert_eq!(good.answers(1.0, 0, clip).0, [0; 4]);
        assert_eq!(good.answers(0.0, 0, clip).0, [10; 4]);
    }
    for clip in [5e-324, 1e-310, f64::MIN_POSITIVE, f64::MAX] {
        assert_eq!(good.answers(1.0, 1, clip).0, [0; 4]);
        assert_eq!(good.answers(0.0, 1, clip).0, [10; 4]);
    }
}

/// 2, 4 and 7 come before it, and 20 to 23 after it.
#[test]
fn refusal_9_in_its_place() {
    let answers = |change: fn(&mut Lent)| {
        let mut lent = Lent::of_g();
        change(&mut lent);
        lent.answers(-1.0, 1, f64::NAN).0[1..].to_vec()
    };
    let place = 65_536;
    assert_eq!(answers(|lent| lent.size.checks = 65_537), [1; 3]);
    assert_eq!(answers(|lent| lent.priors.push(1.0)), [2; 3]);
    assert_eq!(answers(|lent| lent.priors[2] = 31.0), [4 + 2 * place; 3]);
    assert_eq!(answers(|lent| lent.lists.check_var.swap(0, 1)), [7; 3]);

    let good = Lent::of_g();
    let graph = good.lists.graph(good.size, &good.priors);
    let settings = Lent::settings(1.0, 1, 0.0);
    let mut short = DecodeLists::filled(good.size, 1, 9);
    short.bias.clear();
    for (syndrome, order) in [(&[1][..], &[0, 1][..]), (&[2, 0], &[0, 1]), (&[1, 0], &[])] {
        let decoded = calls::decode_in_order(graph, settings, syndrome, 0, order, short.written());
        assert_eq!(decoded, 9);
        let asked = calls::Iteration {
            schedule: 1,
            alpha: 1.0,
            clip_on: 1,
            clip: 0.0,
            gamma: &[],
            syndrome,
            order,
        };
        let lists = calls::IterationLists {
            c_to_v: &mut [],
            v_to_c: &mut [f64::NAN],
            posterior: &mut [],
            bias: &mut [],
        };
        assert_eq!(calls::iteration(graph, asked, lists), 9);
    }
}

/// Every byte but 0 is on, and a magnitude that is off is not looked at.
#[test]
fn what_is_on() {
    let lent = Lent::of_g();
    let (_, off) = lent.answers(1.0, 0, 0.0);
    assert_eq!(off[0], [-4.0, 4.0, 4.0]);
    for magnitude in [3.0, 5e-324, f64::NAN, f64::INFINITY, -1.0] {
        assert_eq!(lent.answers(1.0, 0, magnitude).1, off);
    }
    for clip_on in 1..=255 {
        let (_, on) = lent.answers(1.0, clip_on, 3.0);
        assert_eq!(on, [[1.0, 4.0, 5.0], [1.0, 4.0, 5.0]]);
    }
}
