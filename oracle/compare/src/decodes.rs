//! Whole decodes against the Rust, every field and every bit; and each again in several orders of its checks, against the decode in
//! index order, or against a plain test of the order. What any of them leaves is held to the lines of `best`, and the messages that it
//! wrote to the count of the copy that counts them, in the same order, and to the formula. Decodes with a clip are in `clips`.

use crate::best::{self, Asked};
use crate::clips;
use crate::counts::Counts;
use crate::damage::{damage_lists, nudge_length};
use crate::draws;
use crate::given::{Given, model_of};
use crate::limits;
use crate::rounds::{Part, Rate};
use crate::spoils;
use crate::steps::random_order;
use crate::table::{
    MOST_COUNT, MOST_TURNS, test, wanted_alpha, wanted_clip, wanted_lengths, wanted_lists,
    wanted_mechanisms, wanted_names, wanted_seed, wanted_stores, wanted_syndrome,
};
use oracle::answers::{Decoded, Refusal};
use oracle::bits::is_zero;
use oracle::decode_cases::{DecodeCase, Settings as CaseSettings, Source, random_case};
use oracle::exact::bp::RelayConfig;
use oracle::exact::drive;
use oracle::model::Model;
use oracle::open::bp::{BpGraph, with_priors};
use oracle::open::drive as open;
use oracle::splitmix::{Rule, SplitMix64};
use oracle::stores;
use proved::{Answer, Clip, Decode, Settings, Shot, Size};
use std::collections::BTreeSet;

const ORDERS: usize = 3;

pub const PARTS: &[Part] = &[
    Part {
        rate: Rate::Each(1),
        case: small,
    },
    Part {
        rate: Rate::Every(4000),
        case: large,
    },
    Part {
        rate: Rate::Every(4),
        case: damaged,
    },
    Part {
        rate: Rate::First(1),
        case: published,
    },
    Part {
        rate: Rate::Each(1),
        case: of_two_minds,
    },
    Part {
        rate: Rate::First(limits::FIXED),
        case: limits::fixed,
    },
    Part {
        rate: Rate::Every(200),
        case: limits::drawn,
    },
    Part {
        rate: Rate::First(1),
        case: limits::at_the_limit,
    },
    Part {
        rate: Rate::Each(1),
        case: clips::small,
    },
    Part {
        rate: Rate::Every(4000),
        case: clips::large,
    },
    Part {
        rate: Rate::Every(20),
        case: clips::heavy,
    },
    Part {
        rate: Rate::Every(2),
        case: clips::damaged,
    },
    Part {
        rate: Rate::First(clips::ORDERS_OF_TESTS),
        case: clips::order_of_tests,
    },
    Part {
        rate: Rate::Each(1),
        case: draws::small,
    },
    Part {
        rate: Rate::Every(2),
        case: draws::damaged,
    },
    Part {
        rate: Rate::First(draws::FIXED),
        case: draws::fixed,
    },
];

fn small(case: u64, random: &mut SplitMix64, counts: &mut Counts) {
    let case = random_case(random, case as usize);
    let names = Names::of([
        "decodes, small",
        "orders of small decodes",
        "legs, best of small decodes",
        "stores of small decodes",
    ]);
    compare(names, &case, random, counts);
}

/// Legs that come to different corrections, often of the same weight: more mechanisms than checks, few priors, and a strong memory.
fn of_two_minds(_: u64, random: &mut SplitMix64, counts: &mut Counts) {
    let checks = random.between(2, 8);
    let mechanisms = random.between(checks + 2, 3 * checks);
    let size = Size {
        checks,
        mechanisms,
        edges: 2 * mechanisms,
    };
    let mut model = model_of(size, random);
    let chances = [0.1, random.pick(&[0.1, 0.2, 0.5, 0.6])];
    for probability in &mut model.probabilities {
        *probability = random.pick(&chances);
    }
    let (low, high) = random.pick(&[(-0.24, 0.66), (-1.0, 1.0), (-0.5, 1.5)]);
    let case = DecodeCase {
        syndrome: model.syndrome_of(&random.flags(mechanisms, 3)),
        model,
        settings: CaseSettings {
            serial: random.once_in(2),
            gamma0: random.pick(&[0.1, 0.5, 0.9]),
            pre_iterations: random.between(1, 6),
            num_legs: random.between(3, 12),
            leg_iterations: random.between(2, 10),
            low,
            high,
            stop: random.between(2, 6),
            ..CaseSettings::point_before()
        },
        seed: random.draw(),
    };
    let names = Names::of([
        "decodes, of two minds",
        "orders of decodes of two minds",
        "legs, best of decodes of two minds",
        "stores of decodes of two minds",
    ]);
    compare(names, &case, random, counts);
}

pub fn settings_of(case: &CaseSettings) -> Settings {
    Settings {
        serial: case.serial,
        alpha: case.alpha,
        clip: Clip::of(case.clip),
        gamma0: case.gamma0,
        pre_iterations: case.pre_iterations,
        num_legs: case.num_legs,
        leg_iterations: case.leg_iterations,
        low: case.low,
        high: case.high,
        stop: case.stop,
        source: match &case.source {
            Source::Seeded(Rule::ByShot) => proved::Source::ByShot,
            Source::Seeded(Rule::SeedXorLeg) => proved::Source::SeedXorLeg,
            Source::Explicit(sets) => proved::Source::Explicit(sets.len()),
        },
    }
}

/// The other way round, of settings that were taken with their gammas.
pub fn case_of(settings: Settings, gammas: &[f64], mechanisms: usize) -> CaseSettings {
    let set = |number: usize| gammas[number * mechanisms..(number + 1) * mechanisms].to_vec();
    CaseSettings {
        serial: settings.serial,
        alpha: settings.alpha,
        clip: settings.clip.meant(),
        gamma0: settings.gamma0,
        pre_iterations: settings.pre_iterations,
        num_legs: settings.num_legs,
        leg_iterations: settings.leg_iterations,
        low: settings.low,
        high: settings.high,
        stop: settings.stop,
        source: match settings.source {
            proved::Source::ByShot => Source::Seeded(Rule::ByShot),
            proved::Source::SeedXorLeg => Source::Seeded(Rule::SeedXorLeg),
            proved::Source::Explicit(sets) => Source::Explicit((0..sets).map(set).collect()),
        },
    }
}

pub fn flat_of(case: &CaseSettings) -> Vec<f64> {
    match &case.source {
        Source::Seeded(_) => Vec::new(),
        Source::Explicit(sets) => sets.concat(),
    }
}

fn told(answer: &Result<Decoded, Refusal>) -> Answer {
    match answer {
        Ok(_) => Ok(()),
        Err(refusal) => Err(refusal.pair()),
    }
}

/// The lists that the Rust's outcome asks for, with the messages that it wrote, over lists filled with one number of which the surplus is
/// kept.
fn wanted_left(
    size: Size,
    legs: usize,
    before: &Decode,
    outcome: Option<(&Decoded, u64)>,
) -> Decode {
    let mut left = before.clone();
    let mechanisms = size.mechanisms;
    left.leg_state[..legs].fill(0);
    left.leg_steps[..legs].fill(0);
    left.leg_weight[..legs].fill(0.0);
    left.rows[..legs * mechanisms].fill(0);
    for list in [
        &mut left.gamma,
        &mut left.bias,
        &mut left.c_to_v,
        &mut left.v_to_c,
    ] {
        list.fill(0.0);
    }
    let Some((outcome, stores)) = outcome else {
        left.correction.fill(0);
        left.posterior.fill(0.0);
        left.counts = [0; 4];
        left.weight = [0.0];
        return left;
    };
    for (place, leg) in outcome.legs.iter().enumerate() {
        left.leg_steps[place] = leg.iterations as u32;
        left.leg_state[place] = 1;
        if let Some((weight, correction)) = &leg.found {
            left.leg_state[place] = 2;
            left.leg_weight[place] = *weight;
            left.rows[place * mechanisms..(place + 1) * mechanisms].copy_from_slice(correction);
        }
    }
    left.correction.copy_from_slice(&outcome.correction);
    left.posterior.copy_from_slice(&outcome.posterior);
    left.counts = [
        u64::from(outcome.weight.is_some()),
        outcome.legs.len() as u64,
        outcome.total as u64,
        stores,
    ];
    left.weight = [outcome.weight.unwrap_or(0.0)];
    left
}

/// Every byte of every list, for a comparison of two.
pub fn bits(left: &Decode) -> Vec<u64> {
    let floats = [
        &left.leg_weight,
        &left.posterior,
        &left.gamma,
        &left.bias,
        &left.c_to_v,
        &left.v_to_c,
    ];
    let bytes = [&left.leg_state, &left.rows, &left.correction];
    let mut all: Vec<u64> = Vec::new();
    for list in bytes {
        all.push(list.len() as u64);
        all.extend(list.iter().map(|&byte| u64::from(byte)));
    }
    all.push(left.leg_steps.len() as u64);
    all.extend(left.leg_steps.iter().map(|&count| u64::from(count)));
    for list in floats {
        all.push(list.len() as u64);
        all.extend(list.iter().map(|value| value.to_bits()));
    }
    all.extend(left.counts);
    all.push(left.weight[0].to_bits());
    all
}

/// Whether the record of each of the legs reads as the lists have it.
fn legs_read(left: &Decode, legs: usize) -> bool {
    (0..legs).all(|leg| {
        let (state, iterations, weight) = left.leg(leg);
        state == u64::from(left.leg_state[leg])
            && iterations == u64::from(left.leg_steps[leg])
            && weight.to_bits() == left.leg_weight[leg].to_bits()
    })
}

/// Counts whether an answered decode has written as many messages as the copy that counts them, in as many iterations, and as many as the
/// formula says. Where the Rust's outcome is at hand, that copy must have come to it.
pub fn check_stores(
    name: &'static str,
    (serial, detectors): (bool, &[Vec<u32>]),
    (counted, rust): (&Result<Decoded, Refusal>, Option<&Decoded>),
    left: &Decode,
    counts: &mut Counts,
) {
    let [_, _, total, stores] = left.counts;
    let by_formula = u128::from(total) * stores::by_formula(serial, detectors);
    let as_counted = counted.as_ref().is_ok_and(|counted| {
        (counted.total as u64, counted.stores) == (total, Some(stores))
            && rust.is_none_or(|rust| counted.is_same(rust))
    });
    let good = as_counted && u128::from(stores) == by_formula;
    counts.check(name, Ok(()), good, || {
        format!("{stores} for {by_formula} and {counted:?}: serial {serial}, {detectors:?}")
    });
}

/// The name of a decode's comparison, that of its comparisons in other orders, that of the lines of what they leave, and that of the messages
/// that they wrote.
#[derive(Clone, Copy)]
pub struct Names {
    names: [&'static str; 4],
    /// Whether the reader of these lines is tried too.
    tries_reader: bool,
}

impl Names {
    pub const fn of(names: [&'static str; 4]) -> Self {
        let tries_reader = true;
        Self {
            names,
            tries_reader,
        }
    }

    /// Without trying the reader.
    pub const fn alone(names: [&'static str; 4]) -> Self {
        let tries_reader = false;
        Self {
            names,
            tries_reader,
        }
    }
}

/// One decode both ways, and then in other orders. With a clip the other way is the copy that has one.
pub fn compare(names: Names, case: &DecodeCase, random: &mut SplitMix64, counts: &mut Counts) {
    let (given, built) = Given::built(&case.model, random);
    let graph = open::sparse_graph(&case.model).expect("these models build");
    let rust = match case.settings.clip {
        None => drive::decode(case),
        Some(_) => stores::decode(case),
    };
    compare_over(
        names,
        (&given, built),
        case,
        (&rust, &graph),
        random,
        counts,
    );
}

/// The same over a graph that was built, beside what the Rust answers. The open copy's graph is for the copy that counts messages, which must
/// come to what the Rust does.
pub fn compare_over(
    Names {
        names: [name, orders, lines, written],
        tries_reader,
    }: Names,
    (given, built): (&Given, Answer),
    case: &DecodeCase,
    (rust, graph): (&Result<Decoded, Refusal>, &BpGraph),
    random: &mut SplitMix64,
    counts: &mut Counts,
) {
    let counted = stores::decode_over(graph.clone(), case);
    let stores = match (rust, &counted) {
        (Ok(rust), Ok(counted)) if counted.is_same(rust) => counted.stores,
        _ => None,
    };
    let outcome = rust.as_ref().ok().zip(stores);
    let incidences = (case.settings.serial, case.model.detectors.as_slice());
    let settings = Settings {
        clip: clips::said(case),
        ..settings_of(&case.settings)
    };
    let gammas = flat_of(&case.settings);
    let legs = settings.num_legs + 1;
    let before = Decode::filled(given.size, legs + random.below(3), 9);
    let shot = Shot {
        gammas: &gammas,
        syndrome: &case.syndrome,
        seed: case.seed,
        order: None,
    };
    let run = |shot: Shot| {
        let mut left = before.clone();
        let answer = given.decode(settings, shot, &mut left);
        (answer, left)
    };
    let wanted = told(rust);
    let wanted_bits = bits(&wanted_left(given.size, legs, &before, outcome));
    let (answer, left) = run(shot);
    counts.check(
        name,
        wanted,
        built == Ok(()) && answer == wanted && bits(&left) == wanted_bits && legs_read(&left, legs),
        || format!("{answer:?}, {left:?} for {rust:?}, {counted:?}: {case:?}"),
    );
    let theirs = rust.as_ref().ok();
    if answer == Ok(()) {
        check_stores(written, incidences, (&counted, theirs), &left, counts);
    }
    let asked = Asked {
        detectors: &case.model.detectors,
        priors: &given.priors,
        syndrome: &case.syndrome,
        legs,
    };
    if answer == Ok(()) && best::check(lines, asked, &left, counts) && tries_reader {
        best::note(asked, &left, counts);
        spoils::check(asked, &left, seed_of_spoils(case), counts);
    }
    for _ in 0..ORDERS {
        let order = some_order(given, random);
        let refused = wanted_of_order(given, settings.serial, &order);
        let (in_order, left) = run(Shot {
            order: Some(&order),
            ..shot
        });
        let good = match refused {
            Ok(()) => in_order == wanted && bits(&left) == wanted_bits,
            Err(_) => in_order == refused && bits(&left) == bits(&before),
        };
        counts.check(orders, refused, good, || {
            format!("{in_order:?} for {refused:?}, {wanted:?}: {order:?}, {case:?}")
        });
        if in_order == Ok(()) {
            best::check(lines, asked, &left, counts);
        }
        if (refused, in_order) == (Ok(()), Ok(())) {
            let counted = stores::decode_in_order(graph.clone(), case, &order);
            check_stores(written, incidences, (&counted, theirs), &left, counts);
        }
    }
}

/// Of the case, so that no case is changed by what is drawn for spoiling.
fn seed_of_spoils(case: &DecodeCase) -> u64 {
    let of_schedule = u64::from(case.settings.serial);
    SplitMix64::new(!case.seed).draw().wrapping_add(of_schedule)
}

/// An order of the checks: any, or one that keeps the index order of checks that share a mechanism, or one that does not name each
/// once.
fn some_order(given: &Given, random: &mut SplitMix64) -> Vec<u32> {
    let checks = given.size.checks;
    let mut order = random_order(random, checks);
    match random.below(8) {
        0 if checks > 0 => {
            let at = random.below(checks);
            order[at] = random.below(checks + 1) as u32;
        }
        1 => nudge_length(random, &mut order, 0),
        2..=5 => {
            // Neighbours that share nothing are exchanged, again and again.
            order = (0..checks as u32).collect();
            for _ in 0..4 * checks {
                let at = random.below(checks.max(1));
                if at + 1 < checks && !share(given, order[at], order[at + 1]) {
                    order.swap(at, at + 1);
                }
            }
        }
        _ => {}
    }
    order
}

fn mechanisms_of(given: &Given, check: u32) -> &[u32] {
    let offsets = &given.lists.check_offset;
    let part = offsets[check as usize] as usize..offsets[check as usize + 1] as usize;
    &given.lists.check_var[part]
}

fn share(given: &Given, one: u32, other: u32) -> bool {
    let mechanisms: BTreeSet<u32> = mechanisms_of(given, one).iter().copied().collect();
    mechanisms_of(given, other)
        .iter()
        .any(|mechanism| mechanisms.contains(mechanism))
}

/// 23 and 24, check by check.
fn wanted_of_order(given: &Given, serial: bool, order: &[u32]) -> Answer {
    wanted_names(order, given.size.checks)?;
    if !serial {
        return Ok(());
    }
    for (place, &check) in order.iter().enumerate() {
        let late = order[..place]
            .iter()
            .any(|&before| before > check && share(given, before, check));
        if late {
            return Err((24, u64::from(check)));
        }
    }
    Ok(())
}

/// Checks, mechanisms, edges, iterations of leg zero, relayed legs.
const LARGE: [(usize, usize, usize, usize, usize); 4] = [
    (65_536, 65_536, 262_144, 4, 1),
    (1024, 4096, 12_288, 10, 3),
    (1025, 2048, 6144, 10, 2),
    (300, 900, 2700, 30, 16),
];

fn large(case: u64, random: &mut SplitMix64, counts: &mut Counts) {
    let case = large_case(case, random);
    let names = Names::of([
        "decodes, large",
        "orders of large decodes",
        "legs, best of large decodes",
        "stores of large decodes",
    ]);
    compare(names, &case, random, counts);
}

/// A decode of a size of the list, on one schedule and then on the other.
pub fn large_case(case: u64, random: &mut SplitMix64) -> DecodeCase {
    let (checks, mechanisms, edges, pre_iterations, num_legs) =
        LARGE[case as usize / 2 % LARGE.len()];
    let size = Size {
        checks,
        mechanisms,
        edges,
    };
    let mut model = model_of(size, random);
    for probability in &mut model.probabilities {
        *probability = 0.01 + 0.1 * random.unit();
    }
    DecodeCase {
        syndrome: model.syndrome_of(&random.flags(mechanisms, 200)),
        model,
        settings: CaseSettings {
            serial: !case.is_multiple_of(2),
            pre_iterations,
            num_legs,
            leg_iterations: 5,
            stop: 2,
            ..CaseSettings::point_before()
        },
        seed: random.draw(),
    }
}

/// The published operating point, which the Rust's settings have by default, with the draw by shot.
fn published(_: u64, _: &mut SplitMix64, counts: &mut Counts) {
    let ours = proved::published();
    let theirs = format!("{:?}", RelayConfig::default());
    let case = case_of(ours, &[], 0);
    let is_off = (ours.clip.on, ours.clip.magnitude.to_bits()) == (0, 0);
    let by_shot = ours.source == proved::Source::ByShot;
    let same = is_off && by_shot && format!("{:?}", drive::config(&case, None)) == theirs;
    counts.check("decodes, the published point", Ok(()), same, || {
        format!("{ours:?} for {theirs}")
    });
}

/// What the reference's table says of settings over as many mechanisms: 1, 9 to 19.
pub fn wanted_settings(settings: Settings, gammas: &[f64], mechanisms: usize) -> Answer {
    let finite = |value: f64| value.is_finite();
    wanted_mechanisms(mechanisms)?;
    wanted_clip(settings.clip)?;
    wanted_alpha(settings.alpha)?;
    test(finite(settings.gamma0), 11)?;
    test((1..=MOST_TURNS).contains(&settings.pre_iterations), 12)?;
    test(settings.num_legs <= MOST_TURNS, 13)?;
    let legs = settings.num_legs;
    test(
        settings.leg_iterations <= MOST_TURNS && (legs == 0 || settings.leg_iterations > 0),
        14,
    )?;
    let (low, high) = (settings.low, settings.high);
    test(
        finite(low) && finite(high) && finite(high - low) && low <= high,
        15,
    )?;
    test(settings.stop > 0, 16)?;
    let proved::Source::Explicit(sets) = settings.source else {
        return Ok(());
    };
    test(legs == 0 || sets > 0, 17)?;
    let long = sets as u128 * mechanisms as u128;
    test(sets <= MOST_TURNS && long == gammas.len() as u128, 18)?;
    match gammas.iter().position(|gamma| !finite(*gamma)) {
        Some(place) => Err((19, place as u64)),
        None => Ok(()),
    }
}

/// What it says before the legs: 1, 2, 4, 7, 9 to 21, 27, 22 to 24, 29.
pub fn wanted_before(given: &Given, settings: Settings, shot: Shot, left: &Decode) -> Answer {
    wanted_lists(given)?;
    let mechanisms = given.size.mechanisms;
    wanted_settings(settings, shot.gammas, mechanisms)?;
    wanted_syndrome(shot.syndrome, given.size.checks)?;
    wanted_seed(settings, shot.seed)?;
    let legs = settings.num_legs;
    let rows = [
        left.leg_state.len(),
        left.leg_steps.len(),
        left.leg_weight.len(),
    ];
    test(
        rows.iter().all(|&long| long > legs)
            && left.rows.len() >= (legs + 1) * mechanisms
            && left.correction.len() == mechanisms,
        22,
    )?;
    wanted_lengths(
        given.size,
        &[&left.posterior, &left.gamma, &left.bias],
        &[&left.c_to_v, &left.v_to_c],
    )?;
    if let Some(order) = shot.order {
        wanted_of_order(given, settings.serial, order)?;
    }
    wanted_stores(settings, &best::detectors_of(given.size, &given.lists))
}

fn damage_settings(random: &mut SplitMix64, settings: &mut Settings) {
    let beyond = [MOST_TURNS + 1, 1 << 32, (1 << 32) + 1, usize::MAX];
    let bad = [f64::NAN, f64::INFINITY, f64::NEG_INFINITY];
    match random.below(13) {
        0 => settings.alpha = random.pick(&[0.0, -0.0, -1.0, f64::NAN, f64::INFINITY]),
        1 => settings.gamma0 = random.pick(&bad),
        2 => {
            settings.pre_iterations =
                random.pick(&[0, MOST_TURNS, MOST_TURNS + 1, 1 << 32, usize::MAX])
        }
        3 => settings.num_legs = random.pick(&beyond),
        4 => settings.leg_iterations = random.pick(&[0, MOST_TURNS + 1, 1 << 32, usize::MAX]),
        5 => settings.low = random.pick(&bad),
        6 => settings.high = random.pick(&bad),
        7 => (settings.low, settings.high) = (-f64::MAX, f64::MAX),
        8 => (settings.low, settings.high) = (0.5, 0.25),
        9 => settings.stop = random.pick(&[0, 0, 1 << 32, usize::MAX]),
        10 => {
            let sets = random.pick(&[0, 1, MOST_TURNS + 1, 1 << 32, usize::MAX]);
            settings.source = proved::Source::Explicit(sets);
        }
        11 => settings.leg_iterations = MOST_TURNS,
        _ => settings.low = settings.high,
    }
}

fn damaged(_: u64, random: &mut SplitMix64, counts: &mut Counts) {
    let names = [
        "settings, damaged",
        "decodes, damaged",
        "legs, best of damaged decodes",
        "stores of damaged decodes",
    ];
    compare_damaged(names, |_, _| {}, Clip::OFF, random, counts);
}

/// A call with a clip, of a case that may be changed first, damaged in one place or two.
pub fn compare_damaged(
    [alone, name, lines, written]: [&'static str; 4],
    change: fn(&mut DecodeCase, &mut SplitMix64),
    clip: Clip,
    random: &mut SplitMix64,
    counts: &mut Counts,
) {
    let round = random.below(2);
    let mut case = random_case(random, round);
    change(&mut case, random);
    let (mut given, built) = Given::built(&case.model, random);
    let mut settings = settings_of(&case.settings);
    settings.clip = clip;
    settings.num_legs = settings.num_legs.min(2);
    let mut gammas = flat_of(&case.settings);
    let mut order = some_order(&given, random);
    let mut left = Decode::filled(given.size, settings.num_legs + 1, 9);
    for _ in 0..random.between(1, 2) {
        match random.below(8) {
            0 => nudge_length(random, &mut case.syndrome, 1),
            1 if !case.syndrome.is_empty() => {
                let at = random.below(case.syndrome.len());
                case.syndrome[at] = random.pick(&[2, 3, 255]);
            }
            2 => match random.below(10) {
                0 => nudge_length(random, &mut left.leg_state, 9),
                1 => nudge_length(random, &mut left.leg_steps, 9),
                2 => nudge_length(random, &mut left.leg_weight, 9.0),
                3 => nudge_length(random, &mut left.rows, 9),
                4 => nudge_length(random, &mut left.correction, 9),
                5 => nudge_length(random, &mut left.posterior, 9.0),
                6 => nudge_length(random, &mut left.gamma, 9.0),
                7 => nudge_length(random, &mut left.bias, 9.0),
                8 => nudge_length(random, &mut left.c_to_v, 9.0),
                _ => nudge_length(random, &mut left.v_to_c, 9.0),
            },
            3 => match random.below(2) {
                0 => nudge_length(random, &mut gammas, 0.5),
                _ if !gammas.is_empty() => {
                    let at = random.below(gammas.len());
                    gammas[at] = random.pick(&[f64::NAN, f64::INFINITY]);
                }
                _ => {}
            },
            4 => damage_lists(random, &mut given),
            5 => order = (0..given.size.checks.min(70_000) as u32).collect(),
            _ => damage_settings(random, &mut settings),
        }
    }
    let shot = Shot {
        gammas: &gammas,
        syndrome: &case.syndrome,
        seed: case.seed,
        order: random.once_in(2).then_some(&order),
    };
    // The settings alone are also asked about over as many mechanisms as no graph has.
    let mechanisms = match random.below(16) {
        0 => random.pick(&[MOST_COUNT, MOST_COUNT + 1, 1 << 32, usize::MAX]),
        _ => given.size.mechanisms,
    };
    let wanted = wanted_settings(settings, &gammas, mechanisms);
    let answer = proved::check_settings(settings, &gammas, mechanisms);
    counts.check(alone, wanted, answer == wanted, || {
        format!("{answer:?} for {wanted:?}: {settings:?}, {mechanisms} mechanisms, {gammas:?}")
    });
    let wanted = wanted_before(&given, settings, shot, &left);
    // Tens of thousands of iterations show nothing here.
    if wanted.is_ok() && settings.pre_iterations + settings.leg_iterations > 1000 {
        return;
    }
    let before = left.clone();
    let answer = given.decode(settings, shot, &mut left);
    let good = match wanted {
        // What the legs leave is what the others show, but for zeroes.
        Ok(()) => match answer {
            Ok(()) => {
                let work = [&left.gamma, &left.bias, &left.c_to_v, &left.v_to_c];
                work.iter().all(|list| is_zero(list))
            }
            Err((number, _)) => {
                let zeroed = wanted_left(given.size, settings.num_legs + 1, &before, None);
                number == 30 && bits(&left) == bits(&zeroed)
            }
        },
        Err(_) => answer == wanted && bits(&left) == bits(&before),
    };
    counts.check(name, wanted, good && built == Ok(()), || {
        format!("{answer:?} for {wanted:?}: {settings:?}, {shot:?}, {given:?}")
    });
    if (wanted, answer) == (Ok(()), Ok(())) {
        // The damage may have made another graph of the model's.
        let detectors = best::detectors_of(given.size, &given.lists);
        let asked = Asked {
            detectors: &detectors,
            priors: &given.priors,
            syndrome: &case.syndrome,
            legs: settings.num_legs + 1,
        };
        best::check(lines, asked, &left, counts);
        let counted = count_again(&given, &detectors, settings, shot);
        let incidences = (settings.serial, detectors.as_slice());
        check_stores(written, incidences, (&counted, None), &left, counts);
    }
}

/// The decode of what was lent, on the copy that counts messages.
fn count_again(
    given: &Given,
    detectors: &[Vec<u32>],
    settings: Settings,
    shot: Shot,
) -> Result<Decoded, Refusal> {
    let mechanisms = detectors.len();
    let case = DecodeCase {
        model: Model {
            checks: given.size.checks,
            probabilities: vec![0.5; mechanisms], // The priors are put in below.
            detectors: detectors.to_vec(),
        },
        settings: case_of(settings, shot.gammas, mechanisms),
        syndrome: shot.syndrome.to_vec(),
        seed: shot.seed,
    };
    let graph = open::sparse_graph(&case.model).expect("7 let the graph through");
    let graph = with_priors(graph, &given.priors);
    match shot.order {
        Some(order) => stores::decode_in_order(graph, &case, order),
        None => stores::decode_over(graph, &case),
    }
}
