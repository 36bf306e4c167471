//! Settings of kind 4, whose gammas are drawn by shot: alone, before and behind those of kind 2, with 27, and with each fault that settings can have.

use super::Cases;
use super::contents::firsts;
use super::whole::ring;
use crate::stream::{Model, SETTINGS_BY_SHOT, Settings, Stream};
use oracle::decode_cases::TOO_LARGE;

/// A ring of nine checks and syndromes of it, of which the last has no correction, each with shots at the borders.
fn shots_on_ring(settings: &Settings) -> (Stream, usize) {
    let mut stream = Stream::new().model(&ring(9, 2.0)).settings(settings);
    let shots = [0, 1, 40, 41, TOO_LARGE - 1];
    let syndromes = [
        [1, 0, 0, 1, 0, 0, 0, 0, 0],
        [1, 0, 1, 0, 1, 0, 1, 0, 0],
        [1, 1, 1, 0, 0, 0, 0, 0, 0],
    ];
    for syndrome in syndromes {
        for shot in shots {
            stream = stream.shot(shot, &syndrome);
        }
    }
    (stream, shots.len() * syndromes.len())
}

/// The same shots behind settings of one kind and of the other, which are to have different lines.
pub(super) fn of_either_kind() -> [Stream; 2] {
    let settings = Settings::relayed(0, 1, 16, 2, 3);
    [settings, settings.by_shot()].map(|settings| shots_on_ring(&settings).0)
}

pub(super) fn whole_runs(cases: &mut Cases) {
    let g = Model::g();
    let plain = Settings::plain(0, 2).by_shot();
    let first = Stream::new().model(&g);
    cases.runs(
        &[0],
        "the reference's, by shot",
        first.clone().settings(&plain).shot(7, &[1, 0]),
    );
    cases.runs(
        &[0],
        "settings by shot before the model",
        Stream::new().settings(&plain).model(&g).shot(7, &[1, 0]),
    );
    for schedule in [0, 1] {
        for settings in [
            Settings::relayed(schedule, 1, 16, 2, 3),
            Settings::relayed(schedule, 2, 4, 3, u32::MAX),
        ] {
            let (stream, shots) = shots_on_ring(&settings.by_shot());
            cases.runs(&vec![0; shots], "shots on a ring, by shot", stream);
        }
    }
    let nine = [1, 1, 1, 0, 0, 0, 0, 0, 0];
    let relayed = Settings::relayed(0, 1, 16, 2, 3);
    let kinds = [relayed, relayed.by_shot(), relayed, relayed.by_shot()];
    let mut stream = Stream::new().model(&ring(9, 2.0));
    for settings in kinds {
        stream = stream
            .settings(&settings)
            .shot(40, &nine)
            .shot(TOO_LARGE, &nine);
    }
    cases.runs(
        &[0, 0, 0, 27, 0, 0, 0, 27],
        "settings of either kind replace those of the other",
        stream,
    );
}

/// 27, and its place: behind 20 and 21, before 30.
pub(super) fn refused_shots(cases: &mut Cases) {
    for legs in [0, 3] {
        let settings = Settings::relayed(0, 2, legs, 2, 1).by_shot();
        cases.runs(
            &[0, 27, 0, 27, 27, 0],
            "27 between good shots",
            Stream::new()
                .model(&Model::g())
                .settings(&settings)
                .shot(7, &[1, 0])
                .shot(TOO_LARGE, &[1, 0])
                .shot(TOO_LARGE - 1, &[1, 0])
                .shot(1 << 63, &[1, 0])
                .shot(u64::MAX, &[1, 1])
                .shot(0, &[1, 1]),
        );
        let huge = Settings {
            alpha: 1e308,
            ..settings
        };
        cases.runs(
            &[20, 21, 27, 30, 0],
            "20 and 21 before 27, and 27 before 30",
            Stream::new()
                .model(&Model::g())
                .settings(&huge)
                .shot(TOO_LARGE, &[1])
                .shot(TOO_LARGE, &[2, 0])
                .shot(TOO_LARGE, &[1, 0])
                .shot(TOO_LARGE - 1, &[1, 0])
                .settings(&Settings::plain(0, 2))
                .shot(TOO_LARGE, &[1, 0]),
        );
    }
}

/// 40 to 45 and 10 to 16 of settings of kind 4.
pub(super) fn faults(cases: &mut Cases) {
    let good = Settings::relayed(0, 2, 2, 2, 1).by_shot();
    for (code, name, spoil) in firsts() {
        let mut settings = good;
        spoil(&mut settings);
        cases.stops(
            code,
            &format!("by shot, {name}"),
            Stream::of_g().settings(&settings).shot(7, &[1, 0]),
        );
    }
    let payload = good.payload();
    for length in [0, 1, 48, 50, 98, 6000] {
        let mut payload = payload.clone();
        payload.resize(length, 0);
        cases.stops(
            42,
            &format!("settings by shot of {length} bytes"),
            Stream::new().record(SETTINGS_BY_SHOT, &payload),
        );
    }
    let mut longer = Settings { legs: 17, ..good }.payload();
    longer.push(0);
    cases.stops(
        42,
        "by shot, 42 before 44: 17 legs in 50 bytes",
        Stream::new().record(SETTINGS_BY_SHOT, &longer),
    );
    let plain = Settings::plain(0, 2);
    cases.stops(
        43,
        "settings of both kinds are no model",
        Stream::new()
            .settings(&plain)
            .settings(&plain.by_shot())
            .shot(7, &[1, 0]),
    );
    let whole = Stream::new()
        .model(&Model::new(0, &[]))
        .settings(&good)
        .shot(TOO_LARGE, &[]);
    let ends = [0, 18, 73, whole.bytes.len()];
    for length in 0..=whole.bytes.len() {
        let part = Stream::new().raw(&whole.bytes[..length]);
        let name = format!("nothing in the graph, by shot, cut after {length} bytes");
        match ends.iter().position(|&end| end == length) {
            Some(3) => cases.runs(&[27], &name, part),
            Some(_) => cases.runs(&[], &name, part),
            None => cases.stops(40, &name, part),
        }
    }
}
