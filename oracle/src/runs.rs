//! The reference's small runs R1 to R11 on the Rust.

use crate::belief_cases::BeliefCase;
use crate::bits::bits;
use crate::decode_cases::{DecodeCase, Settings, Source};
use crate::exact::bp::RelayConfig;
use crate::exact::drive;
use crate::graph_cases::GraphCase;
use crate::model::{Model, find_probability};
use crate::splitmix::{
    PUBLISHED, PUBLISHED_LEG, PUBLISHED_SHOT, PUBLISHED_START, Rule, SplitMix64,
};
use crate::stores;
use crate::tally::Tally;

pub fn run(tally: &mut Tally) {
    for prior in [4.0, 2.0] {
        let found = find_probability(prior);
        let seen = match found {
            Some(p) => format!("probability {p:?}, bits {:016x}", p.to_bits()),
            None => "no probability found".into(),
        };
        tally.check(
            &format!("prior {prior} by a probability"),
            found.is_some(),
            &seen,
        );
        if found.is_none() {
            return;
        }
    }
    let saturated = drive::priors(&[0.0])[0];
    tally.check(
        "prior 30 by probability 0",
        same(&[saturated], &[30.0]),
        &floats(&[saturated]),
    );
    offsets(tally);
    relay_on_g(tally);
    single_check(tally);
    nothing(tally);
    default_point(tally);
    generator(tally);
    println!("note R6: refusal 24 is ours, the Rust knows no order; not checked here");
    println!(
        "note R12: -0.0 is no prior of the oracle domain, prior_llrs never gives it; not checked here"
    );
}

/// Equal bit for bit.
fn same(seen: &[f64], wanted: &[f64]) -> bool {
    bits(seen) == bits(wanted)
}

fn floats(list: &[f64]) -> String {
    format!("{list:?}")
}

fn offsets(tally: &mut Tally) {
    let g = Model::g();
    let lists = drive::graph(&GraphCase::sparse(g)).expect("G builds");
    let of_one = &lists.var_message[lists.var_offset[1]..lists.var_offset[2]];
    tally.check(
        "R1",
        lists.check_offset == [0, 2, 4] && lists.var_offset == [0, 1, 3, 4] && of_one == [1, 2],
        &format!(
            "offsets {:?} and {:?}, variable 1 has messages {of_one:?}",
            lists.check_offset, lists.var_offset
        ),
    );
}

/// What a small run says of a decode.
struct Wanted<'a> {
    converged_at: Option<usize>,
    iterations: usize,
    weight: Option<f64>,
    posterior: &'a [f64],
    bits: &'a [u8],
}

fn decode_check(
    tally: &mut Tally,
    name: &str,
    model: Model,
    settings: Settings,
    syndrome: &[u8],
    wanted: &Wanted,
) {
    let case = DecodeCase {
        model,
        settings,
        syndrome: syndrome.to_vec(),
        seed: 0,
    };
    let seen = drive::decode(&case).expect("a small run is not refused");
    let counted = stores::decode(&case).expect("a small run is not refused");
    let stores = counted.stores.unwrap_or(u64::MAX);
    let each = stores::by_formula(case.settings.serial, &case.model.detectors);
    let converged_at = seen.legs[0].found.as_ref().map(|_| seen.legs[0].iterations);
    let weight_bits = |weight: Option<f64>| weight.map(f64::to_bits);
    let holds = converged_at == wanted.converged_at
        && seen.total == wanted.iterations
        && seen.legs.len() == 1
        && weight_bits(seen.weight) == weight_bits(wanted.weight)
        && same(&seen.posterior, wanted.posterior)
        && seen.correction == wanted.bits
        && seen.is_same(&counted)
        && u128::from(stores) == wanted.iterations as u128 * each;
    tally.check(
        name,
        holds,
        &format!(
            "converged at {converged_at:?} of {} iterations, weight {:?}, posterior {:?}, bits {:?}, {stores} messages written",
            seen.total, seen.weight, seen.posterior, seen.correction
        ),
    );
}

fn relay_on_g(tally: &mut Tally) {
    let exchanged = || Model::g().renumbered(&[1, 0]);
    let converged = Wanted {
        converged_at: Some(2),
        iterations: 2,
        weight: Some(4.0),
        posterior: &[-4.0, 4.0, 4.0],
        bits: &[1, 0, 0],
    };
    let open = |posterior: &'static [f64], bits: &'static [u8]| Wanted {
        converged_at: None,
        iterations: 1,
        weight: None,
        posterior,
        bits,
    };
    let flooding = |pre| Settings::plain(false, pre);
    let serial = |pre| Settings::plain(true, pre);
    let after_one = open(&[0.0, 4.0, 8.0], &[0, 0, 0]);
    decode_check(tally, "R2", Model::g(), flooding(1), &[1, 0], &after_one);
    decode_check(tally, "R3", Model::g(), flooding(2), &[1, 0], &converged);
    decode_check(tally, "R4", Model::g(), serial(2), &[1, 0], &converged);
    let in_order = open(&[0.0, 4.0, 4.0], &[0, 0, 0]);
    decode_check(tally, "R5", Model::g(), serial(1), &[1, 0], &in_order);
    println!(
        "note R6, R7: the Rust walks checks by number, so the order 1,0 is had by exchanging the checks' numbers (detectors and syndrome relabelled)"
    );
    // In this order the first serial iteration converges already.
    let other_order = Wanted {
        converged_at: Some(1),
        iterations: 1,
        weight: Some(4.0),
        posterior: &[-4.0, 4.0, 8.0],
        bits: &[1, 0, 0],
    };
    decode_check(tally, "R6", exchanged(), serial(1), &[0, 1], &other_order);
    decode_check(tally, "R7", exchanged(), flooding(2), &[0, 1], &converged);
    min_sum_check(tally, "R8", Model::g(), &[1, 0], &[0.0, 4.0, 8.0]);
}

fn min_sum_check(tally: &mut Tally, name: &str, model: Model, syndrome: &[u8], wanted: &[f64]) {
    let seen = drive::beliefs(&BeliefCase {
        model,
        syndrome: syndrome.to_vec(),
        iterations: 1,
        scale: 1.0,
        serial: false,
    })
    .expect("a small run is not refused");
    tally.check(name, same(&seen, wanted), &format!("beliefs {seen:?}"));
}

fn single_check(tally: &mut Tally) {
    let two = || Model::single(crate::model::probability_of(2.0));
    let wanted = Wanted {
        converged_at: Some(1),
        iterations: 1,
        weight: Some(2.0),
        posterior: &[-28.0],
        bits: &[1],
    };
    decode_check(
        tally,
        "R9, Relay",
        two(),
        Settings::plain(false, 1),
        &[1],
        &wanted,
    );
    min_sum_check(tally, "R9, min-sum", two(), &[1], &[2.0]);
    let wanted = Wanted {
        converged_at: None,
        iterations: 1,
        weight: None,
        posterior: &[0.0],
        bits: &[0],
    };
    let settings = Settings::plain(false, 1);
    decode_check(tally, "R10", Model::single(0.0), settings, &[1], &wanted);
}

fn nothing(tally: &mut Tally) {
    let wanted = Wanted {
        converged_at: Some(1),
        iterations: 1,
        weight: Some(-0.0),
        posterior: &[],
        bits: &[],
    };
    let settings = Settings::plain(false, 5);
    decode_check(tally, "R11", Model::nothing(), settings, &[], &wanted);
}

fn default_point(tally: &mut Tally) {
    let theirs = format!("{:?}", RelayConfig::default());
    let ours = Settings::default_point();
    let holds = matches!(ours.source, Source::Seeded(Rule::ByShot))
        && theirs == format!("{:?}", drive::config(&ours, None));
    tally.check("default operating point", holds, &theirs);
}

/// The public outputs of SplitMix64, since the seeded sets and all the cases come of it.
fn generator(tally: &mut Tally) {
    let from_0 = [
        0xE220_A839_7B1D_CDAF,
        0x6E78_9E6A_A1B9_65F4,
        0x06C4_5D18_8009_454F,
    ];
    let vectors: [(u64, &[u64]); 2] = [(0, &from_0), (PUBLISHED_START, &PUBLISHED)];
    for (seed, wanted) in vectors {
        let mut generator = SplitMix64::new(seed);
        let seen: Vec<u64> = wanted.iter().map(|_| generator.draw()).collect();
        tally.check(
            &format!("SplitMix64 from {seed}"),
            seen == wanted,
            &format!("{seen:x?}"),
        );
    }
    let start = Rule::ByShot.start(PUBLISHED_SHOT, PUBLISHED_LEG as u64);
    tally.check(
        &format!("the start of leg {PUBLISHED_LEG} of shot {PUBLISHED_SHOT}"),
        start == PUBLISHED_START,
        &start.to_string(),
    );
}
