//! Decodes with a clip, which the published files have not: against the copy that has one, every field and every bit, in index order and in
//! others. Beside each the same decode without, on which that copy must come to what the published files do. And 9, among the other tests.

use crate::counts::Counts;
use crate::decodes::{
    Names, bits, compare, compare_damaged, flat_of, large_case, settings_of, wanted_before,
    wanted_settings,
};
use crate::given::Given;
use crate::table::{MOST_COUNT, MOST_TURNS};
use oracle::answers::{Decoded, Refusal};
use oracle::decode_cases::{self, BAD_CLIPS, DecodeCase, Source, random_case, random_clip};
use oracle::exact::drive;
use oracle::model::Model;
use oracle::splitmix::SplitMix64;
use oracle::stores;
use proved::{Answer, Clip, Decode, Settings, Shot};

/// The clip of a case as a call is told it: any byte but 0 for on, and off any magnitude. Drawn of the case's seed, so that no case is changed.
pub fn said(case: &DecodeCase) -> Clip {
    let mut random = SplitMix64::new(case.seed.rotate_left(32));
    match case.settings.clip {
        Some(magnitude) => Clip {
            on: some_on(&mut random),
            magnitude,
        },
        None => some_off(&mut random),
    }
}

/// Off, with any magnitude.
pub fn some_off(random: &mut SplitMix64) -> Clip {
    Clip {
        on: 0,
        magnitude: some_magnitude(random),
    }
}

/// A byte that is on.
pub fn some_on(random: &mut SplitMix64) -> u8 {
    match random.below(4) {
        0 => random.between(1, 255) as u8,
        1 => 255,
        _ => 1,
    }
}

/// Any number, good and bad.
fn some_magnitude(random: &mut SplitMix64) -> f64 {
    match random.below(4) {
        0 => 0.0,
        1 => random.pick(&BAD_CLIPS),
        2 => random.unit(),
        _ => f64::from_bits(random.draw()),
    }
}

/// A clip for a call that is to be damaged: mostly a good one, now and then a bad one or none.
pub fn some_clip(random: &mut SplitMix64) -> Clip {
    let on = if random.once_in(8) {
        0
    } else {
        some_on(random)
    };
    let magnitude = match random.below(4) {
        0 => some_magnitude(random),
        1 => random.pick(&[5e-324, 1e-310, 1e-20, 1e300, f64::MAX]),
        _ => 0.1 + 39.9 * random.unit(),
    };
    Clip { on, magnitude }
}

/// A decode with a clip, and then the same without.
fn compare_both(
    [on, off]: [Names; 2],
    case: DecodeCase,
    random: &mut SplitMix64,
    counts: &mut Counts,
) {
    compare(on, &case, random, counts);
    let mut without = case.clone();
    without.settings.clip = None;
    note(&stores::decode(&case), &drive::decode(&without), counts);
    compare(off, &without, random, counts);
}

/// Counts what the clip has done.
fn note(on: &Result<Decoded, Refusal>, off: &Result<Decoded, Refusal>, counts: &mut Counts) {
    let converged = |answer: &Result<Decoded, Refusal>| {
        let answer = answer.as_ref().ok();
        answer.map(|outcome| outcome.weight.is_some())
    };
    let is_other = match (on, off) {
        (Ok(on), Ok(off)) => !on.is_same(off),
        (on, off) => on.is_ok() != off.is_ok(),
    };
    let (on, off) = (converged(on), converged(off));
    for (name, is_so) in [
        ("clips, decodes that came to something else", is_other),
        (
            "clips, decodes refused with 30 without",
            off.is_none() && on.is_some(),
        ),
        (
            "clips, decodes refused with 30 without, and converged",
            off.is_none() && on == Some(true),
        ),
        ("clips, decodes refused with 30 all the same", on.is_none()),
    ] {
        counts.note(name, u64::from(is_so));
    }
}

pub fn small(case: u64, random: &mut SplitMix64, counts: &mut Counts) {
    let mut case = random_case(random, case as usize);
    case.settings.clip = Some(random_clip(random, &case));
    let names = [
        Names::alone([
            "decodes, clipped",
            "orders of clipped decodes",
            "legs, best of clipped decodes",
            "stores of clipped decodes",
        ]),
        Names::alone([
            "decodes, clipped, without the clip",
            "orders of clipped decodes without the clip",
            "legs, best of clipped decodes without the clip",
            "stores of clipped decodes without the clip",
        ]),
    ];
    compare_both(names, case, random, counts);
}

pub fn large(case: u64, random: &mut SplitMix64, counts: &mut Counts) {
    let mut case = large_case(case, random);
    case.settings.clip = Some(random_clip(random, &case));
    let names = Names::alone([
        "decodes, large and clipped",
        "orders of large clipped decodes",
        "legs, best of large clipped decodes",
        "stores of large clipped decodes",
    ]);
    compare(names, &case, random, counts);
}

/// Some mechanisms that set off many checks, and legs enough for 30 without a clip; in the first two cases those of the lists.
pub fn heavy(case: u64, random: &mut SplitMix64, counts: &mut Counts) {
    let mut case = match case {
        0 | 1 => decode_cases::heavy(case == 1),
        _ => busy(random),
    };
    case.settings.clip = Some(random.pick(&[30.0, 30.0, 20.0, 10.0, 1e3]));
    let names = [
        Names::alone([
            "decodes, heavy and clipped",
            "orders of heavy clipped decodes",
            "legs, best of heavy clipped decodes",
            "stores of heavy clipped decodes",
        ]),
        Names::alone([
            "decodes, heavy, without the clip",
            "orders of heavy decodes without the clip",
            "legs, best of heavy decodes without the clip",
            "stores of heavy decodes without the clip",
        ]),
    ];
    compare_both(names, case, random, counts);
}

/// The published point on a ring of checks, of which each mechanism has nearly all, and some of the mechanisms happened.
fn busy(random: &mut SplitMix64) -> DecodeCase {
    let checks = random.between(10, 16);
    let mechanisms = random.between(2, 6);
    let degree = random.between(checks - 4, checks - 1);
    let detectors = |first: usize| {
        (first..first + degree)
            .map(|place| (place % checks) as u32)
            .collect()
    };
    let model = Model {
        checks,
        probabilities: vec![random.pick(&[0.001, 0.01, 0.02, 0.05]); mechanisms],
        detectors: (0..mechanisms).map(detectors).collect(),
    };
    DecodeCase {
        syndrome: model.syndrome_of(&random.flags(mechanisms, 2)),
        model,
        settings: decode_cases::Settings {
            serial: random.once_in(2),
            ..decode_cases::Settings::point_before()
        },
        seed: random.draw(),
    }
}

pub fn damaged(_: u64, random: &mut SplitMix64, counts: &mut Counts) {
    let names = [
        "settings, damaged, with a clip",
        "decodes, damaged, with a clip",
        "legs, best of damaged decodes with a clip",
        "stores of damaged decodes with a clip",
    ];
    let clip = some_clip(random);
    compare_damaged(names, |_, _| {}, clip, random, counts);
}

/// All that a decode takes.
pub struct Call {
    pub given: Given,
    pub settings: Settings,
    pub gammas: Vec<f64>,
    pub syndrome: Vec<u8>,
    pub order: Vec<u32>,
    pub left: Decode,
}

impl Call {
    /// A good one over G, with two explicit sets, and what the building of its graph was answered.
    pub fn good(serial: bool, random: &mut SplitMix64) -> (Self, Answer) {
        let (given, built) = Given::built(&Model::g(), random);
        let case = decode_cases::Settings {
            num_legs: 2,
            leg_iterations: 2,
            source: Source::Explicit(vec![vec![0.25; 3]; 2]),
            ..decode_cases::Settings::plain(serial, 2)
        };
        let call = Self {
            left: Decode::filled(given.size, 3, 9),
            given,
            settings: settings_of(&case),
            gammas: flat_of(&case),
            syndrome: vec![1, 0],
            order: vec![0, 1],
        };
        (call, built)
    }
}

/// The number of a test, and what makes it refuse.
pub type Fault = (u64, fn(&mut Call));

/// Of every test of a decode that a small call can come to, but 9. 18 and 19 are of an explicit source.
pub const FAULTS: [Fault; 18] = [
    (1, |call| call.given.size.mechanisms = MOST_COUNT + 1),
    (2, |call| call.given.priors.push(0.0)),
    (4, |call| call.given.priors[1] = 31.0),
    (7, |call| call.given.lists.check_var.swap(0, 1)),
    (10, |call| call.settings.alpha = -0.0),
    (11, |call| call.settings.gamma0 = f64::NAN),
    (12, |call| call.settings.pre_iterations = 0),
    (13, |call| call.settings.num_legs = MOST_TURNS + 1),
    (14, |call| call.settings.leg_iterations = 0),
    (15, |call| call.settings.low = f64::INFINITY),
    (16, |call| call.settings.stop = 0),
    (17, |call| {
        call.settings.source = proved::Source::Explicit(0)
    }),
    (18, |call| call.gammas.push(0.0)),
    (19, |call| call.gammas[4] = f64::NAN),
    (20, |call| call.syndrome.push(0)),
    (21, |call| call.syndrome[1] = 2),
    (22, |call| call.left.bias.push(9.0)),
    (23, |call| call.order[0] = 1),
];

/// Nothing but 9, and then each of the other faults beside it.
pub const ORDERS_OF_TESTS: u64 = 1 + FAULTS.len() as u64;

/// A fault beside a bad clip that is on, and beside the same that is off: of the settings alone, and of both decodes.
pub fn order_of_tests(case: u64, random: &mut SplitMix64, counts: &mut Counts) {
    let fault = (case as usize).checked_sub(1).map(|place| FAULTS[place]);
    for magnitude in BAD_CLIPS {
        for on in [0, 1, 2, 128, 255] {
            for serial in [false, true] {
                let clip = Clip { on, magnitude };
                order_of_two(fault, clip, serial, random, counts);
            }
        }
    }
}

fn order_of_two(
    fault: Option<Fault>,
    clip: Clip,
    serial: bool,
    random: &mut SplitMix64,
    counts: &mut Counts,
) {
    let (mut call, built) = Call::good(serial, random);
    call.settings.clip = clip;
    let number = fault.map(|(number, _)| number);
    if let Some((_, spoil)) = fault {
        spoil(&mut call);
    }
    // 9 is behind 7 and before 10. An order is tested where there is one, and a clip where it is on.
    let nine = (clip.on != 0).then_some(9);
    let is_first = |answer: Answer, tested: Option<u64>| {
        answer.err().map(|(first, _)| first) == tested.into_iter().chain(nine).min()
    };
    let mechanisms = call.given.size.mechanisms;
    let wanted = wanted_settings(call.settings, &call.gammas, mechanisms);
    let answer = proved::check_settings(call.settings, &call.gammas, mechanisms);
    let of_settings =
        number.filter(|number| [1, 10, 11, 12, 13, 14, 15, 16, 17, 18, 19].contains(number));
    counts.check(
        "settings, 9 and another",
        wanted,
        answer == wanted && is_first(answer, of_settings),
        || format!("{answer:?} for {wanted:?}: {:?}", call.settings),
    );
    for order in [None, Some(call.order.as_slice())] {
        let shot = Shot {
            gammas: &call.gammas,
            syndrome: &call.syndrome,
            seed: 1,
            order,
        };
        let wanted = wanted_before(&call.given, call.settings, shot, &call.left);
        let mut left = call.left.clone();
        let answer = call.given.decode(call.settings, shot, &mut left);
        let kept = wanted.is_ok() || bits(&left) == bits(&call.left);
        let tested = number.filter(|number| *number != 23 || order.is_some());
        counts.check(
            "decodes, 9 and another",
            wanted,
            built == Ok(()) && answer == wanted && kept && is_first(answer, tested),
            || format!("{answer:?} for {wanted:?}: {:?}, {shot:?}", call.settings),
        );
    }
}
