//! What an outcome depends on: model, settings, syndrome and seed, and neither the shots before it nor the order of checks.

mod common;

use chowderkite::{
    iteration, min_sum, min_sum_into, BpGraph, BpScratch, DrawRule, GammaSource, LegOutcome,
    Refusal, RelayBp, RelayConfig, RelayState, Schedule,
};
use common::{bits, outcome_bits, Random};
use Schedule::{CheckSerial, Flooding};

fn settings(schedule: Schedule) -> RelayConfig {
    RelayConfig {
        schedule,
        pre_iterations: 6,
        num_legs: 5,
        leg_iterations: 4,
        stop_after_converged: 3,
        ..RelayConfig::default()
    }
}

#[test]
fn used_again_as_fresh() {
    let mut random = Random::new(1);
    let graph = random.model(20, 50);
    for schedule in [Flooding, CheckSerial] {
        let mut used = RelayBp::new(graph.clone(), settings(schedule)).unwrap();
        let (mut converged, mut not) = (0, 0);
        for _ in 0..100 {
            let happened = random.below(12);
            let syndrome = random.syndrome(&graph, happened);
            let seed = random.shot();
            let mut fresh = RelayBp::new(graph.clone(), settings(schedule)).unwrap();
            let outcome = used.decode(&syndrome, seed).unwrap();
            assert_eq!(
                outcome_bits(&outcome),
                outcome_bits(&fresh.decode(&syndrome, seed).unwrap())
            );
            if outcome.converged {
                converged += 1;
            } else {
                not += 1;
            }
            // Refused shots leave nothing behind either.
            assert_eq!(used.decode(&[2; 20], 0).unwrap_err().number(), 21);
            assert_eq!(used.decode(&[], 0).unwrap_err().number(), 20);
        }
        assert!(converged > 0 && not > 0, "{converged} and {not}");
    }
}

/// Mechanism 0 hears the same huge number from both checks: their sum overflows, unless the syndrome gives them other signs.
#[test]
fn non_finite_leaves_nothing_behind() {
    let graph =
        BpGraph::from_sparse(2, &[(2.0, vec![0, 1]), (2.0, vec![0]), (2.0, vec![1])]).unwrap();
    let config = RelayConfig {
        alpha: 5e307,
        pre_iterations: 1,
        num_legs: 0,
        ..RelayConfig::default()
    };
    let mut fresh = RelayBp::new(graph.clone(), config.clone()).unwrap();
    let wanted = outcome_bits(&fresh.decode(&[1, 0], 0).unwrap());
    let mut used = RelayBp::new(graph, config).unwrap();
    for _ in 0..2 {
        let error = used.decode(&[0, 0], 0).unwrap_err();
        assert_eq!(
            (error.refusal(), error.place()),
            (Refusal::NonFinite, Some(0))
        );
        assert_eq!(outcome_bits(&used.decode(&[1, 0], 0).unwrap()), wanted);
    }
}

#[test]
fn scratch_used_again_as_fresh() {
    let mut random = Random::new(2);
    let graph = random.model(20, 50);
    let mut scratch = BpScratch::new(&graph);
    let mut posterior = vec![9.0; 50];
    for iterations in 0..20 {
        let syndrome = random.syndrome(&graph, 5);
        for serial in [false, true] {
            min_sum_into(
                &graph,
                &syndrome,
                iterations,
                0.75,
                serial,
                &mut scratch,
                &mut posterior,
            )
            .unwrap();
            let fresh = min_sum(&graph, &syndrome, iterations, 0.75, serial).unwrap();
            assert_eq!(bits(&posterior), bits(&fresh));
        }
    }
}

#[test]
fn any_order_under_flooding() {
    let mut random = Random::new(3);
    let graph = random.model(20, 50);
    let mut decoder = RelayBp::new(graph.clone(), settings(Flooding)).unwrap();
    for _ in 0..100 {
        let happened = random.below(12);
        let syndrome = random.syndrome(&graph, happened);
        let seed = random.shot();
        let order = random.permutation(20);
        assert_eq!(
            outcome_bits(&decoder.decode_in_order(&syndrome, seed, &order).unwrap()),
            outcome_bits(&decoder.decode(&syndrome, seed).unwrap())
        );
    }
}

#[test]
fn threads_agree() {
    let mut random = Random::new(9);
    let graph = random.model(20, 50);
    let decoder = RelayBp::new(graph.clone(), settings(CheckSerial)).unwrap();
    let shots: Vec<Vec<u8>> = (0..50).map(|_| random.syndrome(&graph, 6)).collect();
    let all = || {
        let mut decoder = decoder.clone();
        let decode = |(seed, syndrome): (usize, &Vec<u8>)| {
            outcome_bits(&decoder.decode(syndrome, seed as u64).unwrap())
        };
        shots.iter().enumerate().map(decode).collect::<Vec<_>>()
    };
    let wanted = all();
    std::thread::scope(|scope| {
        let threads: Vec<_> = (0..4).map(|_| scope.spawn(all)).collect();
        for thread in threads {
            assert_eq!(thread.join().unwrap(), wanted);
        }
    });
}

/// The front page says 260 KiB; an overflow would end the process.
#[test]
fn stack_of_a_decode() {
    let decodes = || {
        let mut random = Random::new(7);
        let graph = random.model(2000, 4000);
        let syndrome = random.syndrome(&graph, 20);
        let order = random.permutation(2000);
        let mut decoder = RelayBp::new(graph, settings(Flooding)).unwrap();
        let outcome = decoder.decode(&syndrome, 0).unwrap();
        assert_eq!(
            outcome_bits(&decoder.decode_in_order(&syndrome, 0, &order).unwrap()),
            outcome_bits(&outcome)
        );
    };
    let thread = std::thread::Builder::new().stack_size(300 * 1024);
    thread.spawn(decodes).unwrap().join().unwrap();
}

/// The reference's place of 24, plainly: the first check in the order that shares a mechanism with a higher check before it.
fn exchanged(graph: &BpGraph, order: &[u32]) -> Option<usize> {
    let share = |one: u32, other: u32| {
        let mechanisms = graph.mechanisms(one as usize);
        let of_other = graph.mechanisms(other as usize);
        mechanisms.iter().any(|m| of_other.contains(m))
    };
    let late = |place: usize| {
        let check = order[place];
        order[..place]
            .iter()
            .any(|&before| before > check && share(before, check))
    };
    (0..order.len())
        .find(|&place| late(place))
        .map(|place| order[place] as usize)
}

#[test]
fn orders_under_check_serial() {
    let mut random = Random::new(4);
    let graph = random.model(20, 12);
    let mut decoder = RelayBp::new(graph.clone(), settings(CheckSerial)).unwrap();
    let (mut taken, mut refused) = (0, 0);
    for _ in 0..200 {
        let happened = random.below(6);
        let syndrome = random.syndrome(&graph, happened);
        let seed = random.shot();
        let mut order: Vec<u32> = (0..20).collect();
        for _ in 0..random.below(5) {
            let place = random.below(19);
            order.swap(place, place + 1);
        }
        let answer = decoder.decode_in_order(&syndrome, seed, &order);
        match exchanged(&graph, &order) {
            Some(check) => {
                let error = answer.unwrap_err();
                assert_eq!((error.number(), error.place()), (24, Some(check)));
                refused += 1;
            }
            None => {
                let in_index_order = decoder.decode(&syndrome, seed).unwrap();
                assert_eq!(
                    outcome_bits(&answer.unwrap()),
                    outcome_bits(&in_index_order)
                );
                taken += 1;
            }
        }
    }
    assert!(taken > 20 && refused > 20, "{taken} and {refused}");
}

#[test]
fn seeded_is_explicit() {
    let mut random = Random::new(5);
    let graph = random.model(20, 50);
    for _ in 0..20 {
        let syndrome = random.syndrome(&graph, 8);
        for (rule, seed) in [
            (DrawRule::ByShot, random.shot()),
            (DrawRule::SeedXorLeg, random.draw()),
        ] {
            let seeded = RelayConfig {
                gamma_source: GammaSource::Seeded(rule),
                ..settings(Flooding)
            };
            let sets = GammaSource::drawn(rule, seeded.gamma_range, seed, seeded.num_legs, 50);
            let explicit = RelayConfig {
                gamma_source: sets.unwrap(),
                ..seeded.clone()
            };
            let one = RelayBp::new(graph.clone(), seeded)
                .unwrap()
                .decode(&syndrome, seed);
            let other = RelayBp::new(graph.clone(), explicit)
                .unwrap()
                .decode(&syndrome, 0);
            assert_eq!(outcome_bits(&one.unwrap()), outcome_bits(&other.unwrap()));
        }
    }
}

/// A decode is single iterations, leg by leg, with a clip too.
#[test]
fn decode_is_iterations() {
    let mut random = Random::new(6);
    let graph = random.model(20, 50);
    for schedule in [Flooding, CheckSerial] {
        for _ in 0..20 {
            let syndrome = random.syndrome(&graph, 6);
            let seed = random.shot();
            let mut config = settings(schedule);
            let rule = DrawRule::ByShot;
            config.gamma_source =
                GammaSource::drawn(rule, config.gamma_range, seed, 2, 50).unwrap();
            for clip in [None, Some(1.5), Some(1e-310)] {
                config.clip = clip;
                assert_is_iterations(&graph, &config, &syndrome);
            }
        }
    }
}

fn assert_is_iterations(graph: &BpGraph, config: &RelayConfig, syndrome: &[u8]) {
    let order: Vec<u32> = (0..20).collect();
    let mut decoder = RelayBp::new(graph.clone(), config.clone()).unwrap();
    let outcome = decoder.decode(syndrome, 0).unwrap();
    let GammaSource::Explicit { gammas, .. } = &config.gamma_source else {
        unreachable!()
    };
    let mut state = RelayState::new(graph);
    for (leg, record) in outcome.legs[..outcome.executed_legs].iter().enumerate() {
        let gamma = match leg {
            0 => vec![config.gamma0; 50],
            _ => gammas[(leg - 1) % 2 * 50..][..50].to_vec(),
        };
        state.start_leg(graph);
        for step in 1..=record.iterations() {
            iteration(
                graph,
                config.schedule,
                config.alpha,
                config.clip,
                &gamma,
                syndrome,
                &order,
                &mut state,
            )
            .unwrap();
            let is_end = record.converged() && step == record.iterations();
            assert_eq!(matches(graph, &state, syndrome), is_end);
        }
        if let Some(correction) = record.correction() {
            assert_eq!(correction, decision(&state));
        }
    }
    assert_eq!(bits(&state.posterior), bits(&outcome.posterior));
}

fn decision(state: &RelayState) -> Vec<u8> {
    let posterior = state.posterior.iter();
    posterior.map(|&ratio| u8::from(ratio < 0.0)).collect()
}

/// Whether the hard decision has every parity of the syndrome.
fn matches(graph: &BpGraph, state: &RelayState, syndrome: &[u8]) -> bool {
    let decision = decision(state);
    let parity = |check: usize| {
        let mechanisms = graph.mechanisms(check).iter();
        mechanisms.fold(0, |parity, &m| parity ^ decision[m as usize])
    };
    (0..syndrome.len()).all(|check| parity(check) == syndrome[check])
}

/// The least weight wins, the earlier leg on ties.
#[test]
fn best_leg() {
    let mut random = Random::new(8);
    let graph = random.model(20, 50);
    let config = RelayConfig {
        num_legs: 20,
        stop_after_converged: 10,
        ..settings(CheckSerial)
    };
    let mut decoder = RelayBp::new(graph.clone(), config).unwrap();
    let mut later = 0;
    for seed in 0..100 {
        let syndrome = random.syndrome(&graph, 8);
        let outcome = decoder.decode(&syndrome, seed).unwrap();
        let mut best: Option<&LegOutcome> = None;
        for leg in &outcome.legs {
            let less = |best: &LegOutcome| leg.weight() < best.weight();
            if leg.converged() && best.is_none_or(less) {
                later += u32::from(best.is_some());
                best = Some(leg);
            }
        }
        assert_eq!(outcome.converged, best.is_some());
        assert_eq!(outcome.weight, best.and_then(LegOutcome::weight));
        if let Some(best) = best {
            assert_eq!(best.correction(), Some(&outcome.correction[..]));
        }
        let executed = outcome.legs.iter().filter(|leg| leg.iterations() > 0);
        assert_eq!(outcome.executed_legs, executed.count());
        let total: usize = outcome.legs.iter().map(LegOutcome::iterations).sum();
        assert_eq!(outcome.total_iterations, total);
    }
    assert!(later > 0);
}
