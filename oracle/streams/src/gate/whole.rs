//! Runs over shots: refused ones between good ones, models and settings replaced, the full room; and drawn streams.

use super::{Cases, ComesTo, document};
use crate::expect::Code;
use crate::random;
use crate::stream::{Model, Settings, Stream};
use oracle::splitmix::SplitMix64;

fn nothing() -> Model {
    Model::new(0, &[])
}

pub(super) fn whole_runs(cases: &mut Cases) {
    let g = Model::g();
    let plain = Settings::plain(0, 2);
    cases.runs(&[0], "the reference's", Stream::new().raw(&document()));
    cases.runs(&[], "no input", Stream::new());
    cases.runs(&[], "a model alone", Stream::new().model(&g));
    cases.runs(&[], "settings alone", Stream::new().settings(&plain));
    cases.runs(&[], "no shot", Stream::of_g());
    let turned = Stream::new().settings(&plain).model(&g);
    cases.runs(&[0], "settings before the model", turned.shot(7, &[1, 0]));

    let relayed = Settings::relayed(0, 1, 3, 1, 2);
    let empty = Stream::new().model(&nothing());
    cases.runs(
        &[0, 0],
        "nothing in the graph: no bits",
        empty.clone().settings(&plain).shot(0, &[]).shot(1, &[]),
    );
    cases.runs(
        &[0, 20, 0],
        "nothing in the graph, relayed legs",
        empty
            .clone()
            .settings(&relayed)
            .shot(0, &[])
            .shot(1, &[0])
            .shot(2, &[]),
    );
    let mut many = empty.settings(&plain);
    for seed in 0..101 {
        many = many.shot(seed, &[]);
    }
    cases.runs(&[0; 101], "101 shots", many);
    cases.runs(
        &[0, 0],
        "checks and no mechanism",
        Stream::new()
            .model(&Model::new(2, &[]))
            .settings(&relayed)
            .shot(0, &[0, 0])
            .shot(0, &[0, 1]),
    );
    let free = Model::new(
        0,
        &[
            (-30.0, &[]),
            (30.0, &[]),
            (0.0, &[]),
            (-0.0, &[]),
            (-1.5, &[]),
            (5e-324, &[]),
        ],
    );
    cases.runs(
        &[0],
        "mechanisms and no check",
        Stream::new()
            .model(&free)
            .settings(&relayed)
            .shot(u64::MAX, &[]),
    );
    // No leg can converge, so each runs out: the total has seven digits.
    let hopeless = Model::new(1, &[(1.0, &[])]);
    cases.runs(
        &[0],
        "all 17 legs at the limit of iterations",
        Stream::new()
            .model(&hopeless)
            .settings(&Settings::relayed(1, 65_535, 16, 65_535, 1))
            .shot(3, &[1]),
    );
    let seeded = Settings::relayed(0, 1, 16, 2, u32::MAX);
    let mut seeds = Stream::new().model(&g).settings(&seeded);
    for seed in [0, 1, 40, 41, 1 << 63, u64::MAX] {
        seeds = seeds.shot(seed, &[1, 1]);
    }
    cases.runs(&[0; 6], "seeds, and a stop above every leg", seeds);
}

/// The reference's small runs, as far as a stream can ask for them.
pub(super) fn document_runs(cases: &mut Cases) {
    let on = |model: &Model, settings: Settings, syndrome: &[u8]| {
        Stream::new()
            .model(model)
            .settings(&settings)
            .shot(7, syndrome)
    };
    let g = Model::g();
    let one = |prior: f64| Model::new(1, &[(prior, &[0])]);
    cases.runs(&[0], "R2", on(&g, Settings::plain(0, 1), &[1, 0]));
    cases.runs(&[0], "R3", on(&g, Settings::plain(0, 2), &[1, 0]));
    cases.runs(&[0], "R4", on(&g, Settings::plain(1, 2), &[1, 0]));
    cases.runs(&[0], "R9", on(&one(2.0), Settings::plain(0, 1), &[1]));
    cases.runs(&[0], "R10", on(&one(30.0), Settings::plain(0, 1), &[1]));
    cases.runs(&[0], "R11", on(&nothing(), Settings::plain(0, 1), &[]));
}

/// A ring of checks, with two detectors a mechanism.
pub(super) fn ring(checks: u32, prior: f64) -> Model {
    let lists: Vec<[u32; 2]> = (0..checks).map(|c| [c, (c + 1) % checks]).collect();
    let mechanisms: Vec<(f64, &[u32])> = lists
        .iter()
        .enumerate()
        .map(|(m, list)| (prior + m as f64 * 0.125, &list[..]))
        .collect();
    Model::new(checks, &mechanisms)
}

pub(super) fn replaced(cases: &mut Cases) {
    let (large, small) = (ring(9, 2.0), ring(3, 3.0));
    let nine = [1, 0, 0, 1, 0, 0, 0, 0, 0];
    let relayed = Settings::relayed(1, 2, 4, 3, 2);
    cases.runs(
        &[0, 0, 0, 20],
        "later models keep the settings",
        Stream::new()
            .model(&large)
            .settings(&relayed)
            .shot(5, &nine)
            .model(&small)
            .shot(5, &[1, 1, 0])
            .model(&large)
            .shot(5, &nine)
            .model(&nothing())
            .shot(5, &nine),
    );
    cases.runs(
        &[0, 0, 0, 0],
        "later settings keep the model",
        Stream::new()
            .model(&large)
            .settings(&Settings::plain(0, 1))
            .shot(5, &nine)
            .settings(&relayed)
            .shot(5, &nine)
            .settings(&Settings {
                schedule: 0,
                ..relayed
            })
            .shot(5, &nine)
            .settings(&Settings::plain(0, 1))
            .shot(5, &nine),
    );
    cases.runs(
        &[0],
        "models and settings that no shot uses",
        Stream::new()
            .model(&small)
            .model(&large)
            .settings(&relayed)
            .settings(&Settings::plain(1, 9))
            .model(&Model::g())
            .shot(1, &[0, 1]),
    );
    let bad = Model::new(1, &[(31.0, &[0])]);
    cases.stops(
        4,
        "a later model that is refused",
        Stream::of_g().shot(7, &[1, 0]).model(&bad).shot(7, &[1, 0]),
    );
    cases.stops(
        16,
        "later settings that are refused",
        Stream::of_g()
            .shot(7, &[1, 0])
            .settings(&Settings { stop: 0, ..relayed })
            .shot(7, &[1, 0]),
    );
}

pub(super) fn refused_shots(cases: &mut Cases) {
    let g = Stream::of_g();
    cases.runs(
        &[0, 20, 0, 21, 21, 0],
        "refused shots between good ones",
        g.clone()
            .shot(7, &[1, 0])
            .shot(7, &[1])
            .shot(7, &[0, 1])
            .shot(7, &[1, 2])
            .shot(7, &[255, 0])
            .shot(7, &[1, 1]),
    );
    cases.runs(
        &[20, 20, 20, 20],
        "syndromes of 0, 1, 3 and 128 bytes for 2 checks",
        g.clone()
            .shot(0, &[])
            .shot(0, &[0])
            .shot(0, &[0; 3])
            .shot(0, &[0; 128]),
    );
    cases.runs(&[20], "20 before 21", g.clone().shot(0, &[2, 2, 2]));
    let overflowing = Settings {
        alpha: 1e308,
        ..Settings::plain(0, 2)
    };
    for schedule in [0, 1] {
        let settings = Settings {
            schedule,
            ..overflowing
        };
        cases.runs(
            &[30, 21, 20, 30, 0],
            "30 by an alpha of 1e308, and 20 and 21 before it",
            Stream::new()
                .model(&Model::g())
                .settings(&settings)
                .shot(7, &[1, 0])
                .shot(7, &[2, 0])
                .shot(7, &[1])
                .shot(8, &[0, 1])
                .settings(&Settings::plain(schedule, 2))
                .shot(7, &[1, 0]),
        );
    }
    let strong = Settings {
        legs: 1,
        leg_iterations: 1,
        low: 1e308,
        high: 1e308,
        ..Settings::plain(0, 1)
    };
    let stream = Stream::new().model(&Model::g());
    cases.runs(
        &[30, 0],
        "30 in a relayed leg alone",
        stream.settings(&strong).shot(7, &[1, 0]).shot(7, &[0, 0]),
    );
}

/// Models at the full room, with relayed legs in both schedules.
pub(super) fn full_room(cases: &mut Cases) {
    let mut random = SplitMix64::new(0x726f_6f6d);
    for schedule in [0, 1] {
        let model = random::model_of_size(&mut random, 128, 256, 512);
        let mut stream = Stream::new().model(&model);
        let mut codes = Vec::new();
        for settings in [
            Settings::relayed(schedule, 8, 16, 5, 2),
            Settings::relayed(1 - schedule, 20, 3, 10, 1),
        ] {
            stream = stream.settings(&settings);
            for rarity in [100, 40, 12, 2] {
                let bits = random.flags(256, rarity);
                stream = stream.shot(random.draw(), &model.syndrome_of(&bits));
                codes.push(0);
            }
            let any = random.bits(128);
            stream = stream.shot(random.draw(), &any);
            codes.push(0);
        }
        cases.runs(&codes, "a model at the full room", stream);
    }
}

/// One long stream for `replay_pieces`: models at the full room, each longer than a piece of 4,096 bytes, and shots behind them with refused ones between, so
/// that pieces end within a model, within shots and between records. Beside it, of each shot the number that refuses it, 0 for none.
pub(super) fn pieces() -> (Stream, Vec<Code>) {
    let mut random = SplitMix64::new(0x7069_6563_6573);
    let mut stream = Stream::new();
    let mut codes = Vec::new();
    for schedule in [0, 1] {
        let model = random::model_of_size(&mut random, 128, 256, 512);
        stream = stream
            .model(&model)
            .settings(&Settings::relayed(schedule, 8, 4, 5, 2));
        for number in 0..30 {
            let bits = random.flags(256, 40);
            let mut syndrome = model.syndrome_of(&bits);
            let code = match number % 5 {
                1 => {
                    syndrome.pop();
                    20
                }
                3 => {
                    syndrome[127] = 2;
                    21
                }
                _ => 0,
            };
            stream = stream.shot(random.draw(), &syndrome);
            codes.push(code);
        }
    }
    (stream, codes)
}

/// So many short streams as `compare` draws them.
pub(super) fn drawn(
    cases: &mut Cases,
    name: &str,
    count: usize,
    seed: u64,
    draw: fn(&mut SplitMix64) -> Vec<u8>,
) {
    const LONGEST: usize = 900;
    let mut random = SplitMix64::new(seed);
    let mut kept = 0;
    while kept < count {
        let bytes = draw(&mut random);
        if bytes.len() <= LONGEST {
            cases.add(name, Stream::new().raw(&bytes), ComesTo::Either);
            kept += 1;
        }
    }
}
