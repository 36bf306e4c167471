//! What a model or settings say: 4 to 6, 45 and 10 to 16; and of two faults in one record, the one that counts.

use super::Cases;
use super::records::of_mechanisms;
use crate::expect::Code;
use crate::stream::{MODEL, Model, SETTINGS, SHOT, Settings, Stream};

/// The least float above 30.
fn above_30() -> f64 {
    30.0_f64.next_up()
}

/// 4 to 6.
pub(super) fn models(cases: &mut Cases) {
    let stream = |model: Model| {
        let syndrome = vec![0; model.checks as usize];
        Stream::new()
            .settings(&Settings::plain(0, 2))
            .model(&model)
            .shot(1, &syndrome)
    };
    for prior in [
        30.0,
        -30.0,
        0.0,
        -0.0,
        5e-324,
        -2.5,
        f64::MIN_POSITIVE,
        30.0_f64.next_down(),
    ] {
        let name = format!("a prior of {prior:e}");
        cases.runs(
            &[0],
            &name,
            stream(Model::new(1, &[(prior, &[0]), (1.0, &[0])])),
        );
    }
    for prior in [
        above_30(),
        -above_30(),
        31.0,
        f64::MAX,
        f64::MIN,
        f64::INFINITY,
        f64::NEG_INFINITY,
        f64::NAN,
        -f64::NAN,
        f64::from_bits(0x7ff0_0000_0000_0001),
        f64::from_bits(u64::MAX),
    ] {
        let name = format!(
            "a prior of {prior:e}, first and last ({:016x})",
            prior.to_bits()
        );
        cases.stops(
            4,
            &name,
            stream(Model::new(1, &[(prior, &[0]), (1.0, &[0])])),
        );
        cases.stops(
            4,
            &name,
            stream(Model::new(1, &[(1.0, &[0]), (prior, &[])])),
        );
    }
    let lists = |code: Code, cases: &mut Cases, name: &str, lists: &[&[u32]]| {
        let mechanisms: Vec<(f64, &[u32])> = lists.iter().map(|list| (1.0, *list)).collect();
        cases.stops(code, name, stream(Model::new(3, &mechanisms)));
    };
    lists(5, cases, "detector 3 of 3 checks", &[&[3]]);
    lists(5, cases, "detector 3 last", &[&[0], &[0, 1, 3]]);
    lists(5, cases, "detector 2^32 - 1", &[&[u32::MAX]]);
    lists(5, cases, "detector 2^16", &[&[0], &[1 << 16]]);
    lists(6, cases, "a repeat", &[&[0, 0]]);
    lists(6, cases, "a repeat further on", &[&[1, 2], &[2, 0, 1, 2]]);
    lists(6, cases, "a repeat of the second", &[&[0, 1, 2, 1]]);
    lists(6, cases, "a repeat before a range", &[&[1, 1, 3]]);
    lists(5, cases, "a range before a repeat", &[&[1, 3, 1]]);
    lists(5, cases, "a repeat out of range", &[&[3, 3]]);
    lists(
        6,
        cases,
        "a repeat in the mechanism before",
        &[&[1, 1], &[3]],
    );
    lists(
        5,
        cases,
        "a range in the mechanism before",
        &[&[3], &[1, 1]],
    );
    cases.stops(
        5,
        "a detector where there is no check",
        stream(Model::new(0, &[(1.0, &[0])])),
    );
    cases.stops(
        4,
        "a prior before its detectors",
        stream(Model::new(2, &[(99.0, &[2, 2])])),
    );
    cases.stops(
        6,
        "a repeat before a later prior",
        stream(Model::new(2, &[(1.0, &[0, 0]), (f64::NAN, &[])])),
    );
    cases.stops(
        5,
        "a range before a later prior",
        stream(Model::new(2, &[(1.0, &[2]), (f64::NAN, &[])])),
    );
    let unsorted = Model::new(3, &[(1.0, &[2, 0, 1]), (2.0, &[1, 0])]);
    cases.runs(&[0], "detectors in no order", stream(unsorted));
}

type Change = fn(&mut Settings);
pub(super) type Spoil = (Code, &'static str, Change);

/// Ways to spoil good settings, by the number that each earns, in the order of the tests.
const SPOILED: [Spoil; 38] = [
    (44, "legs 17", |s| s.legs = 17),
    (44, "legs 2^32 - 1", |s| s.legs = u32::MAX),
    (45, "schedule 2", |s| s.schedule = 2),
    (45, "schedule 128", |s| s.schedule = 128),
    (45, "schedule 255", |s| s.schedule = 255),
    (10, "alpha 0", |s| s.alpha = 0.0),
    (10, "alpha -0", |s| s.alpha = -0.0),
    (10, "alpha -5e-324", |s| s.alpha = -5e-324),
    (10, "alpha -1", |s| s.alpha = -1.0),
    (10, "alpha inf", |s| s.alpha = f64::INFINITY),
    (10, "alpha -inf", |s| s.alpha = f64::NEG_INFINITY),
    (10, "alpha NaN", |s| s.alpha = f64::NAN),
    (10, "alpha -NaN", |s| s.alpha = -f64::NAN),
    (11, "gamma0 inf", |s| s.gamma0 = f64::INFINITY),
    (11, "gamma0 -inf", |s| s.gamma0 = f64::NEG_INFINITY),
    (11, "gamma0 NaN", |s| s.gamma0 = f64::NAN),
    (12, "pre 0", |s| s.pre = 0),
    (12, "pre 65536", |s| s.pre = 65_536),
    (12, "pre 2^32 - 1", |s| s.pre = u32::MAX),
    (14, "leg_iterations 0", |s| s.leg_iterations = 0),
    (14, "leg_iterations 65536", |s| s.leg_iterations = 65_536),
    (14, "leg_iterations 65536 and no legs", |s| {
        (s.leg_iterations, s.legs) = (65_536, 0);
    }),
    (14, "leg_iterations 2^32 - 1", |s| {
        s.leg_iterations = u32::MAX;
    }),
    (15, "low NaN", |s| s.low = f64::NAN),
    (15, "high NaN", |s| s.high = f64::NAN),
    (15, "both NaN", |s| (s.low, s.high) = (f64::NAN, f64::NAN)),
    (15, "low -inf", |s| s.low = f64::NEG_INFINITY),
    (15, "high inf", |s| s.high = f64::INFINITY),
    (15, "both inf", |s| {
        (s.low, s.high) = (f64::INFINITY, f64::INFINITY);
    }),
    (15, "low -1e308, high 1e308", |s| {
        (s.low, s.high) = (-1e308, 1e308);
    }),
    (15, "low 0.5, high 0.25", |s| (s.low, s.high) = (0.5, 0.25)),
    (15, "low 5e-324, high 0", |s| {
        (s.low, s.high) = (5e-324, 0.0)
    }),
    (15, "no legs, low above high", |s| {
        (s.legs, s.low, s.high) = (0, 1.0, 0.0);
    }),
    (15, "low inf", |s| s.low = f64::INFINITY),
    (15, "high -inf", |s| s.high = f64::NEG_INFINITY),
    (16, "stop 0", |s| s.stop = 0),
    (16, "stop 0, no legs", |s| (s.stop, s.legs) = (0, 0)),
    (16, "stop 0, 16 legs", |s| (s.stop, s.legs) = (0, 16)),
];

/// 10 to 16, with 44 and 45 before them.
pub(super) fn settings(cases: &mut Cases) {
    let good = Settings::relayed(0, 2, 2, 2, 1);
    let with = |settings: &Settings| {
        Stream::new()
            .model(&Model::g())
            .settings(settings)
            .shot(7, &[1, 0])
    };
    for (code, name, spoil) in SPOILED {
        let mut settings = good;
        spoil(&mut settings);
        cases.stops(code, name, with(&settings));
    }
    let kept: [(&str, Change); 12] = [
        ("good settings", |_| {}),
        ("schedule 1", |s| s.schedule = 1),
        ("alpha 5e-324", |s| s.alpha = 5e-324),
        ("alpha 1e300", |s| s.alpha = 1e300),
        ("gamma0 -0", |s| s.gamma0 = -0.0),
        ("pre 65535", |s| s.pre = 65_535),
        ("leg_iterations 65535", |s| s.leg_iterations = 65_535),
        ("leg_iterations 65535 and no legs", |s| {
            (s.leg_iterations, s.legs) = (65_535, 0);
        }),
        ("leg_iterations 0 and no legs", |s| {
            (s.leg_iterations, s.legs) = (0, 0);
        }),
        ("an interval of both zeroes", |s| {
            (s.low, s.high) = (0.0, -0.0);
        }),
        ("the widest interval", |s| {
            (s.low, s.high) = (-f64::MAX / 2.0, f64::MAX / 2.0);
        }),
        ("stop 2^32 - 1", |s| s.stop = u32::MAX),
    ];
    for (name, change) in kept {
        let mut settings = good;
        change(&mut settings);
        cases.runs(&[0], name, with(&settings));
    }
}

/// Of each number the first way, so that no two touch the same field.
pub(super) fn firsts() -> Vec<Spoil> {
    let mut firsts: Vec<Spoil> = Vec::new();
    for spoil in SPOILED {
        if firsts.iter().all(|(code, _, _)| *code != spoil.0) {
            firsts.push(spoil);
        }
    }
    firsts
}

/// Two faults in one record: the test that comes first counts.
pub(super) fn which_wins(cases: &mut Cases) {
    let firsts = firsts();
    for (place, (code, name, spoil)) in firsts.iter().enumerate() {
        for (_, later, spoil_again) in &firsts[place + 1..] {
            let mut settings = Settings::relayed(0, 2, 2, 2, 1);
            spoil(&mut settings);
            spoil_again(&mut settings);
            cases.stops(
                *code,
                &format!("{name} and {later}"),
                Stream::new().settings(&settings),
            );
        }
    }
    let first = |kind: u16, payload: &[u8]| Stream::new().record(kind, payload);
    cases.stops(
        41,
        "41 before 42: an unknown kind of 7 bytes",
        first(7, &[0; 7]),
    );
    cases.stops(
        42,
        "42 before 43: a shot of 7 bytes first",
        first(SHOT, &[0; 7]),
    );
    cases.stops(
        43,
        "43 before 44: a shot of 137 bytes first",
        first(SHOT, &[0; 137]),
    );
    let mut legs = Settings::relayed(0, 2, 17, 2, 1).payload();
    legs.push(0);
    cases.stops(
        42,
        "42 before 44: 17 legs in 50 bytes",
        first(SETTINGS, &legs),
    );
    let mut schedule = Settings::plain(2, 2).payload();
    schedule.pop();
    cases.stops(
        42,
        "42 before 45: schedule 2 in 48 bytes",
        first(SETTINGS, &schedule),
    );
    let wide = Model::new(129, &[(99.0, &[200, 200])]);
    cases.stops(
        44,
        "44 before 4, 5 and 6: 129 checks and a bad mechanism",
        first(MODEL, &wide.payload()),
    );
    cases.stops(
        42,
        "42 before 44: 129 checks and degrees of 1 for 2 edges",
        first(MODEL, &wide.payload_saying(1, 2, &[1])),
    );
    let mut longer = wide.payload();
    longer.push(0);
    cases.stops(
        42,
        "42 before 44: 129 checks and a byte on",
        first(MODEL, &longer),
    );
    cases.stops(
        42,
        "42 before 44: 257 mechanisms and degrees of 1 for no edges",
        first(MODEL, &{
            let mut degrees = vec![0; 257];
            degrees[256] = 1;
            of_mechanisms(257).payload_saying(257, 0, &degrees)
        }),
    );
    cases.stops(
        42,
        "42 before 4: a bad prior and a byte on",
        first(MODEL, &{
            let mut payload = Model::new(1, &[(99.0, &[0])]).payload();
            payload.push(0);
            payload
        }),
    );
}
