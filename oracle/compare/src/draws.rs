//! Decodes with gammas drawn by shot, against the Rust with the same draws as explicit sets; 27 among the other tests; and the leg that draws
//! SplitMix64's published outputs. The other decodes here draw by the other rule, or have explicit sets.

use crate::clips::{Call, FAULTS, Fault};
use crate::counts::Counts;
use crate::decodes::{Names, bits, compare, compare_damaged, compare_over, wanted_before};
use crate::given::Given;
use oracle::decode_cases::{
    DecodeCase, Settings as CaseSettings, Source, TOO_LARGE, random_case, ring, some_shot,
};
use oracle::exact::drive;
use oracle::open::drive as open;
use oracle::splitmix::{PUBLISHED, PUBLISHED_LEG, PUBLISHED_SHOT, Rule, SplitMix64};
use proved::{Clip, Shot};

pub fn small(case: u64, random: &mut SplitMix64, counts: &mut Counts) {
    let mut case = random_case(random, case as usize);
    case.settings = case.settings.drawn(Rule::ByShot);
    case.seed = some_shot(random);
    let names = Names::alone([
        "decodes, by shot",
        "orders of decodes by shot",
        "legs, best of decodes by shot",
        "stores of decodes by shot",
    ]);
    compare(names, &case, random, counts);
}

/// Shot numbers on both sides of their limit; some of them beside explicit sets or the other rule, which take them all.
pub fn damaged(_: u64, random: &mut SplitMix64, counts: &mut Counts) {
    let names = [
        "settings, damaged, by shot",
        "decodes, damaged, by shot",
        "legs, best of damaged decodes by shot",
        "stores of damaged decodes by shot",
    ];
    let change = |case: &mut DecodeCase, random: &mut SplitMix64| {
        if !random.once_in(4) {
            case.settings.source = Source::Seeded(Rule::ByShot);
        }
        case.seed = match random.below(4) {
            0 => TOO_LARGE + random.below(64) as u64,
            1 => random.draw() | TOO_LARGE,
            _ => some_shot(random),
        };
    };
    compare_damaged(names, change, Clip::OFF, random, counts);
}

/// The published outputs on both schedules; then nothing but 27, and each other fault beside it.
pub const FIXED: u64 = 2 + 1 + FAULTS.len() as u64;

pub fn fixed(case: u64, random: &mut SplitMix64, counts: &mut Counts) {
    match case {
        0 | 1 => published(case == 1, random, counts),
        2 => order_of_tests(None, random, counts),
        _ => order_of_tests(Some(FAULTS[case as usize - 3]), random, counts),
    }
}

/// A decode whose last leg draws the published outputs, a gamma each, and no leg of which converges: the Rust has these outputs as its last set.
fn published(serial: bool, random: &mut SplitMix64, counts: &mut Counts) {
    let case = DecodeCase {
        model: ring(),
        settings: CaseSettings {
            serial,
            pre_iterations: 1,
            num_legs: PUBLISHED_LEG,
            leg_iterations: 1,
            ..CaseSettings::default_point()
        },
        syndrome: vec![1, 0, 0, 0, 0],
        seed: PUBLISHED_SHOT,
    };
    let CaseSettings { low, high, .. } = case.settings;
    let gamma = |output: u64| low + (high - low) * ((output >> 11) as f64 / 2.0_f64.powi(53));
    let mut sets = case.explicit_sets().expect("the case draws its gammas");
    sets[PUBLISHED_LEG - 1] = PUBLISHED.map(gamma).to_vec();
    let mut explicit = case.clone();
    explicit.settings.source = Source::Explicit(sets);
    let rust = drive::decode(&explicit);
    counts.check(
        "draws, published outputs in the last of all legs",
        Ok(()),
        rust.as_ref()
            .is_ok_and(|outcome| outcome.legs.len() == PUBLISHED_LEG + 1),
        || format!("{:?}", rust.as_ref().err()),
    );
    let (given, built) = Given::built(&case.model, random);
    let graph = open::sparse_graph(&case.model).expect("a ring builds");
    let names = Names::alone([
        "decodes, of published outputs",
        "orders of decodes of published outputs",
        "legs, best of decodes of published outputs",
        "stores of decodes of published outputs",
    ]);
    compare_over(
        names,
        (&given, built),
        &case,
        (&rust, &graph),
        random,
        counts,
    );
}

/// A fault beside a shot number that is too large, and beside one that is not: by shot, by the other rule, and with explicit sets.
fn order_of_tests(fault: Option<Fault>, random: &mut SplitMix64, counts: &mut Counts) {
    let explicit = proved::Source::Explicit(2);
    for source in [proved::Source::ByShot, proved::Source::SeedXorLeg, explicit] {
        for seed in [TOO_LARGE, 1 << 63, u64::MAX, TOO_LARGE - 1, 0] {
            for (serial, num_legs) in [(false, 0), (false, 2), (true, 0), (true, 2)] {
                let (mut call, built) = Call::good(serial, random);
                (call.settings.source, call.settings.num_legs) = (source, num_legs);
                if let Some((_, spoil)) = fault {
                    spoil(&mut call);
                }
                for order in [None, Some(call.order.as_slice())] {
                    let shot = Shot {
                        gammas: &call.gammas,
                        syndrome: &call.syndrome,
                        seed,
                        order,
                    };
                    let wanted = wanted_before(&call.given, call.settings, shot, &call.left);
                    let mut left = call.left.clone();
                    let answer = call.given.decode(call.settings, shot, &mut left);
                    let kept = wanted.is_ok() || bits(&left) == bits(&call.left);
                    // 27 is behind 21 and before 22. The fault may be none for this source, these legs or this order.
                    let number = answer.err().map_or(0, |(number, _)| number);
                    let is_27 = call.settings.source == proved::Source::ByShot && seed >= TOO_LARGE;
                    let in_place = if is_27 {
                        number == 27 || (1..=21).contains(&number)
                    } else {
                        number != 27
                    };
                    counts.check(
                        "decodes, 27 and another",
                        wanted,
                        built == Ok(()) && answer == wanted && kept && in_place,
                        || format!("{answer:?} for {wanted:?}: {:?}, {shot:?}", call.settings),
                    );
                }
            }
        }
    }
}
