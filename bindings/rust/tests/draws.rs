//! The two rules of the draw: by shot where none is named, 27 with its place among the tests, which legs start alike, and SplitMix64's
//! published outputs in a decode.

mod common;

use chowderkite::{
    BpGraph, DrawRule, Error, GammaSource, Refusal, RelayBp, RelayConfig, RelayOutcome, Schedule,
    MAX_COUNT, MAX_MECHANISMS,
};
use chowderkite_sys::calls;
use chowderkite_sys::lists::{DecodeLists, Size};
use common::{bits, lent, model_g, outcome_bits};
use std::collections::HashSet;
use DrawRule::{ByShot, SeedXorLeg};
use Schedule::{CheckSerial, Flooding};

/// The least number that is no shot's.
const TOO_LARGE: u64 = 1 << 48;
const RANGE: (f64, f64) = (-0.24, 0.66);

fn drawn_by(rule: DrawRule) -> RelayConfig {
    RelayConfig {
        gamma_source: GammaSource::Seeded(rule),
        ..RelayConfig::default()
    }
}

fn decode(config: RelayConfig, seed: u64) -> Result<RelayOutcome, Error> {
    RelayBp::new(model_g(), config)?.decode(&[1, 0], seed)
}

/// The gammas that legs 1 to `legs` draw, set after set.
fn sets(rule: DrawRule, seed: u64, legs: usize, mechanisms: usize) -> Vec<f64> {
    match GammaSource::drawn(rule, RANGE, seed, legs, mechanisms).unwrap() {
        GammaSource::Explicit { gammas, .. } => gammas,
        GammaSource::Seeded(_) => unreachable!(),
    }
}

#[test]
fn no_rule_is_by_shot() {
    assert_eq!(DrawRule::default(), ByShot);
    let source = RelayConfig::default().gamma_source;
    assert_eq!(source, GammaSource::Seeded(ByShot));
    assert_eq!(calls::published().2[5], u64::from(calls::BY_SHOT));
}

/// With any number of legs; never of explicit sets or by the other rule, which take every seed.
#[test]
fn refusal_27() {
    for schedule in [Flooding, CheckSerial] {
        for num_legs in [0, 1, 40] {
            let of = |gamma_source| RelayConfig {
                schedule,
                num_legs,
                gamma_source,
                ..RelayConfig::default()
            };
            let by_shot = of(GammaSource::Seeded(ByShot));
            for seed in [0, 1, TOO_LARGE - 1] {
                decode(by_shot.clone(), seed).unwrap();
            }
            for seed in [TOO_LARGE, TOO_LARGE + 1, 1 << 63, u64::MAX] {
                let error = decode(by_shot.clone(), seed).unwrap_err();
                assert_eq!(error.refusal(), Refusal::ShotTooLarge);
                assert_eq!((error.number(), error.place()), (27, None));
                assert_eq!(
                    error.to_string(),
                    "refused with 27, ShotTooLarge: gammas drawn by shot: shot number 2^48 or above"
                );
                decode(of(GammaSource::Seeded(SeedXorLeg)), seed).unwrap();
                let gammas = vec![0.25; 3];
                decode(of(GammaSource::Explicit { sets: 1, gammas }), seed).unwrap();
            }
        }
    }
    // The settings are good whatever the shot.
    RelayConfig::default().check(3).unwrap();
}

/// What a call is asked beside G, and what is lent to it.
struct Call {
    source: u8,
    alpha: f64,
    syndrome: Vec<u8>,
    order: Option<Vec<u32>>,
    lists: DecodeLists,
}

const SIZE: Size = Size {
    checks: 2,
    mechanisms: 3,
    edges: 4,
};

impl Call {
    fn by_shot() -> Self {
        Self {
            source: calls::BY_SHOT,
            alpha: 1.0,
            syndrome: vec![1, 0],
            order: None,
            lists: DecodeLists::filled(SIZE, 3, 9),
        }
    }

    /// The answer under CheckSerial. Where it is refused before any work, every list must be as it was.
    fn answer(self, seed: u64) -> u64 {
        self.answer_and_left(seed).0
    }

    /// The same, and all that the lists then hold.
    fn answer_and_left(mut self, seed: u64) -> (u64, String) {
        let graph = model_g();
        let lent = lent(&graph);
        let settings = calls::Settings {
            schedule: 1,
            alpha: self.alpha,
            clip_on: 0,
            clip: 0.0,
            gamma0: 0.0,
            pre_iterations: 2,
            num_legs: 2,
            leg_iterations: 2,
            gamma_low: -0.25,
            gamma_high: 0.5,
            stop_after_converged: 9, // so that all legs run
            source: self.source,
            sets: 1,
            gammas: &[0.25; 3],
        };
        let before = format!("{:?}", self.lists);
        let written = self.lists.written();
        let code = match &self.order {
            None => calls::decode(lent, settings, &self.syndrome, seed, written),
            Some(order) => {
                calls::decode_in_order(lent, settings, &self.syndrome, seed, order, written)
            }
        };
        let left = format!("{:?}", self.lists);
        if code != 0 {
            assert_eq!(left, before);
        }
        (code, left)
    }
}

/// Directly after 21, and so before 22, 23 and 24.
#[test]
fn refusal_27_in_its_place() {
    type Change = fn(&mut Call);
    let faults: [(u64, bool, Change); 6] = [
        (10, true, |call| call.alpha = 0.0),
        (20, true, |call| call.syndrome.push(0)),
        (21 + 65_536, true, |call| call.syndrome[1] = 2),
        (22, false, |call| call.lists.bias.push(9.0)),
        (23, false, |call| call.order = Some(vec![0, 0])),
        (24, false, |call| call.order = Some(vec![1, 0])),
    ];
    for seed in [TOO_LARGE, u64::MAX] {
        assert_eq!(Call::by_shot().answer(seed), 27);
        let mut in_order = Call::by_shot();
        in_order.order = Some(vec![0, 1]);
        assert_eq!(in_order.answer(seed), 27);
        for (code, is_before, spoil) in faults {
            let spoiled = |source: u8| {
                let mut call = Call::by_shot();
                call.source = source;
                spoil(&mut call);
                call
            };
            assert_eq!(
                spoiled(calls::BY_SHOT).answer(seed),
                if is_before { code } else { 27 }
            );
            assert_eq!(spoiled(calls::BY_SHOT).answer(TOO_LARGE - 1), code);
            assert_eq!(spoiled(calls::EXPLICIT).answer(seed), code);
            assert_eq!(spoiled(calls::SEED_XOR_LEG).answer(seed), code);
        }
    }
}

/// 0 is by shot, 1 explicit, and every other byte the old rule: the posterior that the last leg leaves is another for each.
#[test]
fn sources() {
    let left = |source: u8, seed: u64| {
        let mut call = Call::by_shot();
        call.source = source;
        call.answer_and_left(seed)
    };
    let three =
        [calls::BY_SHOT, calls::EXPLICIT, calls::SEED_XOR_LEG].map(|source| left(source, 7));
    assert!(three[0] != three[1] && three[1] != three[2] && three[2] != three[0]);
    assert_eq!(left(calls::BY_SHOT, TOO_LARGE).0, 27);
    assert_eq!(left(calls::EXPLICIT, TOO_LARGE), three[1]);
    for source in 2..=255 {
        assert_eq!(left(source, 7), three[2], "{source}");
        assert_eq!(left(source, TOO_LARGE).0, 0, "{source}");
    }
}

/// A seeded draw is refused where the decode would be.
#[test]
fn sets_that_nobody_draws() {
    let refused = |rule, range, seed, legs, mechanisms| {
        let answer = GammaSource::drawn(rule, range, seed, legs, mechanisms);
        answer.err().map(|error| error.number())
    };
    for (rule, of_seed) in [(ByShot, Some(27)), (SeedXorLeg, None)] {
        assert_eq!(refused(rule, RANGE, TOO_LARGE - 1, 2, 3), None);
        for seed in [TOO_LARGE, u64::MAX] {
            assert_eq!(refused(rule, RANGE, seed, 2, 3), of_seed);
            assert_eq!(refused(rule, RANGE, seed, 0, 0), of_seed);
        }
        assert_eq!(refused(rule, RANGE, 7, MAX_COUNT, 1), None);
        assert_eq!(refused(rule, RANGE, 7, MAX_COUNT + 1, 1), Some(13));
        assert_eq!(refused(rule, RANGE, 7, 1, MAX_MECHANISMS + 1), Some(1));
        assert_eq!(refused(rule, (0.5, 0.25), 7, 1, 1), Some(15));
    }
}

/// By the old rule seed 40 in leg 1 has the gammas of seed 41 in leg 2, and a decode with the one set those of the other. By shot no two legs
/// of these shots have the same first gamma, at the limits of both numbers neither.
#[test]
fn legs_that_start_alike() {
    let leg = |rule, seed, leg: usize| sets(rule, seed, leg, 50)[50 * (leg - 1)..].to_vec();
    assert_eq!(bits(&leg(SeedXorLeg, 40, 1)), bits(&leg(SeedXorLeg, 41, 2)));
    assert_ne!(bits(&leg(ByShot, 40, 1)), bits(&leg(ByShot, 41, 2)));

    let shots = (0..200).chain(TOO_LARGE - 200..TOO_LARGE);
    let firsts = |rule: DrawRule| {
        let all = shots.clone().flat_map(|shot| sets(rule, shot, 40, 1));
        let seen: HashSet<u64> = all.map(f64::to_bits).collect();
        seen.len()
    };
    assert_eq!(firsts(ByShot), 400 * 40);
    assert!(firsts(SeedXorLeg) < 1000);
}

/// SplitMix64's published outputs from 1234567, which is 18 * 65536 + 54919: what leg 54,919 of shot 18 draws. An odd syndrome on a ring has no
/// correction, so every leg runs out, and the posterior is that of the last one.
#[test]
fn published_outputs() {
    const LEGS: usize = 54_919;
    let outputs: [u64; 5] = [
        6_457_827_717_110_365_317,
        3_203_168_211_198_807_973,
        9_817_491_932_198_370_423,
        4_593_380_528_125_082_431,
        16_408_922_859_458_223_821,
    ];
    let (low, high) = RANGE;
    let of_output = |output: u64| low + (high - low) * ((output >> 11) as f64 / 2.0_f64.powi(53));
    let published = outputs.map(of_output);

    let mut gammas = sets(ByShot, 18, LEGS, 5);
    let last = 5 * (LEGS - 1);
    assert_eq!(bits(&gammas[last..]), bits(&published));
    gammas[last..].copy_from_slice(&published);

    let ring: Vec<(f64, Vec<u32>)> = (0..5)
        .map(|c| (3.0 + f64::from(c) / 8.0, vec![c, (c + 1) % 5]))
        .collect();
    let graph = BpGraph::from_sparse(5, &ring).unwrap();
    for schedule in [Flooding, CheckSerial] {
        let decode = |gamma_source: GammaSource, shot: u64| {
            let config = RelayConfig {
                schedule,
                pre_iterations: 1,
                num_legs: LEGS,
                leg_iterations: 1,
                gamma_source,
                ..drawn_by(ByShot)
            };
            let mut decoder = RelayBp::new(graph.clone(), config).unwrap();
            decoder.decode(&[1, 0, 0, 0, 0], shot).unwrap()
        };
        let explicit = |gammas: &[f64]| GammaSource::Explicit {
            sets: LEGS,
            gammas: gammas.to_vec(),
        };
        let by_shot = decode(GammaSource::Seeded(ByShot), 18);
        assert_eq!(by_shot.executed_legs, LEGS + 1);
        let by_outputs = decode(explicit(&gammas), 0);
        assert_eq!(outcome_bits(&by_shot), outcome_bits(&by_outputs));
        // The last set counts: with another gamma in it the posterior is another.
        for mechanism in 0..5 {
            let mut other = gammas.clone();
            other[last + mechanism] += 0.125;
            let outcome = decode(explicit(&other), 0);
            assert_ne!(bits(&outcome.posterior), bits(&by_shot.posterior));
        }
    }
}
