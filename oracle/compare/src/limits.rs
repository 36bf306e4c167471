//! Test 29 at its limit. A decode comes near it by mechanisms of thousands of detectors and by hundreds of millions of iterations, and by
//! CheckSerial alone. One that is refused is asked for by its own call, which answers before any work; of one that is not, the test alone is
//! asked, since even a single iteration takes seconds. One is decoded all the same.

use crate::counts::Counts;
use crate::decodes::{bits, case_of, check_stores, settings_of};
use crate::given::Given;
use crate::table::{MOST_COUNT, MOST_EDGES, MOST_TURNS, most_iterations, wanted_stores};
use oracle::decode_cases::{DecodeCase, Settings as CaseSettings, TOO_LARGE};
use oracle::model::Model;
use oracle::splitmix::SplitMix64;
use oracle::stores;
use proved::{Answer, Decode, Settings, Shot, Source};

/// Mechanisms on every check there can be; mechanisms on one check besides; iterations of leg zero, legs, iterations of a leg; and whether 29
/// lets it through.
type Limit = (usize, usize, usize, usize, usize, bool);

const LIMITS: [Limit; FIXED as usize] = [
    // 2^64 - 2^32.
    (1, 0, MOST_TURNS, MOST_TURNS, MOST_TURNS, true),
    (1, 1, MOST_TURNS, MOST_TURNS, MOST_TURNS, false),
    // 268,431,360 iterations, and one more.
    (16, 0, MOST_TURNS, 4095, MOST_TURNS, true),
    (16, 0, 1, 4096, MOST_TURNS, false),
];

pub const FIXED: u64 = 4;

/// A mechanism on each of the first checks, as many as a degree says.
fn model_of(checks: usize, degrees: &[usize]) -> Model {
    let first = |&degree: &usize| (0..degree as u32).collect();
    Model {
        checks,
        probabilities: vec![0.1; degrees.len()],
        detectors: degrees.iter().map(first).collect(),
    }
}

fn settings(pre_iterations: usize, num_legs: usize, leg_iterations: usize) -> Settings {
    settings_of(&CaseSettings {
        serial: true,
        pre_iterations,
        num_legs,
        leg_iterations,
        ..CaseSettings::point_before()
    })
}

pub fn fixed(case: u64, random: &mut SplitMix64, counts: &mut Counts) {
    let (hubs, thin, pre_iterations, num_legs, leg_iterations, fits) = LIMITS[case as usize];
    let degrees = [vec![MOST_COUNT; hubs], vec![1; thin]].concat();
    let model = model_of(MOST_COUNT, &degrees);
    let settings = settings(pre_iterations, num_legs, leg_iterations);
    let wanted = wanted_stores(settings, &model.detectors);
    counts.check(
        "stores, the limits of 29 by hand",
        wanted,
        wanted.is_ok() == fits,
        || format!("{settings:?}, degrees {degrees:?}"),
    );
    ask(&model, settings, random, counts);
}

/// Degrees so great that the settings can come to the limit, and settings that come to it exactly, or pass it by one iteration.
pub fn drawn(case: u64, random: &mut SplitMix64, counts: &mut Counts) {
    let checks = random.between(MOST_COUNT - 100, MOST_COUNT);
    let hub = match random.below(4) {
        0 => checks,
        1 => random.between(48_000, checks),
        2 => random.between(16_384, 48_000),
        _ => random.between(8_192, 16_384),
    };
    let mut degrees = vec![1; random.below(4)];
    let limit = |degrees: &[usize]| u128::from(u64::MAX) / stores::by_degrees(true, degrees).max(1);
    let most = most_iterations(settings(MOST_TURNS, MOST_TURNS, MOST_TURNS));
    while limit(&degrees) >= u128::from(most) || random.once_in(2) {
        if degrees.iter().sum::<usize>() + hub > MOST_EDGES {
            break;
        }
        degrees.insert(random.below(degrees.len() + 1), hub);
    }
    let passes = case.is_multiple_of(2);
    let iterations = limit(&degrees) as u64 + u64::from(!passes);
    let settings = of_iterations(iterations as usize, random);
    let model = model_of(checks, &degrees);
    let wanted = wanted_stores(settings, &model.detectors);
    counts.check(
        "stores, the limits of 29 by settings",
        wanted,
        most_iterations(settings) == iterations && wanted.is_ok() == passes,
        || format!("{settings:?}, degrees {degrees:?}"),
    );
    ask(&model, settings, random, counts);
}

/// Settings that come to so many iterations, if any do.
fn of_iterations(iterations: usize, random: &mut SplitMix64) -> Settings {
    let before = iterations - 1;
    let leg_iterations = random.between(before / (MOST_TURNS + 1) + 1, MOST_TURNS);
    let num_legs = before / leg_iterations;
    settings(
        iterations - num_legs * leg_iterations,
        num_legs,
        leg_iterations,
    )
}

/// The test alone; where it refuses, the calls; and the calls under Flooding, which is far from the limit.
fn ask(model: &Model, settings: Settings, random: &mut SplitMix64, counts: &mut Counts) {
    let wanted = wanted_stores(settings, &model.detectors);
    let each = stores::by_formula(true, &model.detectors) as u64;
    let most = u64::MAX / each;
    let fits = proved::stores_fit(most_iterations(settings), each);
    let turns = proved::stores_fit(most, each) && !proved::stores_fit(most + 1, each);
    counts.check(
        "stores, 29 alone",
        wanted,
        turns && fits == wanted.is_ok(),
        || format!("{fits}, {turns}: {settings:?}, {each} messages an iteration"),
    );
    let lent = Lent::of(model, random);
    if wanted.is_err() {
        refused(&lent, settings, wanted, random, counts);
    }
    let flooding = Settings {
        serial: false,
        ..settings
    };
    let names = [
        "decodes, of many iterations",
        "stores of decodes of many iterations",
    ];
    taken(names, &lent, model, flooding, counts);
}

/// The first of the fixed ones as it is, which 29 lets through: 65,536 times 65,537 messages in the iteration at which it converges.
pub fn at_the_limit(_: u64, random: &mut SplitMix64, counts: &mut Counts) {
    let model = model_of(MOST_COUNT, &[MOST_COUNT]);
    let lent = Lent::of(&model, random);
    let settings = settings(MOST_TURNS, MOST_TURNS, MOST_TURNS);
    let names = [
        "decodes, at the limit of 29",
        "stores of the decode at the limit of 29",
    ];
    taken(names, &lent, &model, settings, counts);
}

/// A graph, what its building was answered, and a syndrome that the first iteration has.
struct Lent {
    given: Given,
    built: Answer,
    syndrome: Vec<u8>,
}

impl Lent {
    fn of(model: &Model, random: &mut SplitMix64) -> Self {
        let (given, built) = Given::built(model, random);
        Self {
            given,
            built,
            syndrome: vec![0; model.checks],
        }
    }
}

/// A call, and what it must be answered.
struct Asked<'a> {
    settings: Settings,
    syndrome: &'a [u8],
    order: Option<&'a [u32]>,
    lists: Decode,
    wanted: Answer,
}

/// 29 in index order and in one that is taken; and each of the tests before it, where that refuses too. Every list must be as it was.
fn refused(
    lent: &Lent,
    settings: Settings,
    wanted: Answer,
    random: &mut SplitMix64,
    counts: &mut Counts,
) {
    let Lent {
        given,
        built,
        syndrome,
    } = lent;
    let checks = given.size.checks;
    let lists = || Decode::filled(given.size, settings.num_legs + 1, 9);
    let index: Vec<u32> = (0..checks as u32).collect();
    // The first thousands of checks share a mechanism, so none may go before a lower one.
    let at = random.below(4096);
    let mut exchanged = index.clone();
    exchanged.swap(at, at + 1);
    let mut repeated = exchanged.clone();
    repeated[at] = at as u32;
    let mut not_binary = syndrome.clone();
    not_binary[at] = 2;
    let mut short = lists();
    short.bias.pop();
    let good = || Asked {
        settings,
        syndrome,
        order: None,
        lists: lists(),
        wanted,
    };
    let calls = [
        good(),
        Asked {
            order: Some(&index),
            ..good()
        },
        Asked {
            order: Some(&exchanged),
            wanted: Err((24, at as u64)),
            ..good()
        },
        Asked {
            order: Some(&repeated),
            wanted: Err((23, 0)),
            ..good()
        },
        Asked {
            lists: short,
            wanted: Err((22, 0)),
            ..good()
        },
        Asked {
            syndrome: &not_binary,
            wanted: Err((21, at as u64)),
            ..good()
        },
        Asked {
            settings: Settings {
                stop: 0,
                ..settings
            },
            wanted: Err((16, 0)),
            ..good()
        },
    ];
    let mut ask = |name: &'static str, call: Asked, seed: u64| {
        let before = bits(&call.lists);
        let mut left = call.lists;
        let shot = Shot {
            gammas: &[],
            syndrome: call.syndrome,
            seed,
            order: call.order,
        };
        let answer = given.decode(call.settings, shot, &mut left);
        let good = *built == Ok(()) && answer == call.wanted && bits(&left) == before;
        counts.check(name, call.wanted, good, || {
            format!("{answer:?} for {:?}: {settings:?}", call.wanted)
        });
    };
    for call in calls {
        ask("decodes, of too many stores", call, 1);
    }
    let by_shot = Asked {
        settings: Settings {
            source: Source::ByShot,
            ..settings
        },
        wanted: Err((27, 0)),
        ..good()
    };
    ask("decodes, of too many stores, 27", by_shot, TOO_LARGE);
}

/// A decode that is taken, and converges in its first iteration.
fn taken(
    [name, written]: [&'static str; 2],
    lent: &Lent,
    model: &Model,
    settings: Settings,
    counts: &mut Counts,
) {
    let gammas = vec![0.5; model.mechanisms()];
    let settings = Settings {
        source: Source::Explicit(1),
        ..settings
    };
    let shot = Shot {
        gammas: &gammas,
        syndrome: &lent.syndrome,
        seed: 1,
        order: None,
    };
    let mut left = Decode::filled(lent.given.size, settings.num_legs + 1, 9);
    let answer = lent.given.decode(settings, shot, &mut left);
    let good = lent.built == Ok(()) && answer == Ok(()) && left.counts[..3] == [1, 1, 1];
    counts.check(name, Ok(()), good, || {
        format!("{answer:?}, {:?}: {settings:?}", left.counts)
    });
    let counted = stores::decode(&DecodeCase {
        model: model.clone(),
        settings: case_of(settings, &gammas, model.mechanisms()),
        syndrome: lent.syndrome.clone(),
        seed: shot.seed,
    });
    let incidences = (settings.serial, model.detectors.as_slice());
    check_stores(written, incidences, (&counted, None), &left, counts);
}
