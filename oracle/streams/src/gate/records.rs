//! 40 to 44: records that are cut, of no known kind, of a wrong length, too early, or beyond the room.

use super::{Cases, document};
use crate::stream::{MODEL, Mechanism, Model, SETTINGS, SHOT, Settings, Stream};
use std::collections::BTreeMap;

/// 40, and that nothing else of a cut record counts.
pub(super) fn cut(cases: &mut Cases) {
    let good = Stream::of_g().shot(7, &[1, 0]);
    for left in 1..=5 {
        let head = &document()[..left];
        cases.stops(40, "a cut head alone", Stream::new().raw(head));
        cases.stops(40, "a cut head behind a shot", good.clone().raw(head));
    }
    let zeroes = Stream::new().raw(&[0; 5]);
    cases.stops(40, "five zeroes", zeroes);
    let heads: [(u32, u16, usize); 7] = [
        (70, 1, 0),
        (70, 1, 69),
        (u32::MAX, 1, 0),
        (u32::MAX, 3, 20),
        (1, 9, 0),
        (48, 2, 47),
        (200, 3, 199),
    ];
    for (length, kind, there) in heads {
        let name = format!("kind {kind} of {length} bytes, of which {there} are there");
        let payload = vec![0; there];
        cases.stops(
            40,
            &name,
            Stream::new().record_saying(length, kind, &payload),
        );
        let behind = good.clone().record_saying(length, kind, &payload);
        cases.stops(40, &name, behind);
    }
}

/// 41.
pub(super) fn kinds(cases: &mut Cases) {
    let g = Model::g().payload();
    for kind in [0, 6, 5, 255, 256, 257, 258, 259, 0x0300, u16::MAX] {
        let name = format!("kind {kind}");
        cases.stops(41, &name, Stream::new().record(kind, &g));
        cases.stops(41, &name, Stream::new().record(kind, &[]));
        let behind = Stream::of_g().shot(7, &[1, 0]).record(kind, &[1, 2, 3]);
        cases.stops(41, &name, behind.shot(7, &[1, 0]));
    }
}

/// 42 of all kinds, on both sides of each length.
pub(super) fn lengths(cases: &mut Cases) {
    for length in [0, 1, 11] {
        let name = format!("a model of {length} bytes");
        cases.stops(42, &name, Stream::new().record(MODEL, &vec![0; length]));
    }
    cases.runs(
        &[],
        "a model of 12 zeroes",
        Stream::new().record(MODEL, &[0; 12]),
    );
    cases.stops(
        42,
        "a model of 13 zeroes",
        Stream::new().record(MODEL, &[0; 13]),
    );
    let g = Model::g();
    let good = g.payload();
    let shorter = &good[..good.len() - 1];
    let longer = [&good[..], &[0]].concat();
    let by_four = [&good[..], &[0; 4]].concat();
    cases.stops(42, "G, a byte short", Stream::new().record(MODEL, shorter));
    cases.stops(42, "G, a byte on", Stream::new().record(MODEL, &longer));
    cases.stops(
        42,
        "G, a detector on",
        Stream::new().record(MODEL, &by_four),
    );
    let says = |mechanisms: u32, edges: u32, degrees: [u32; 3]| {
        Stream::new().record(MODEL, &g.payload_saying(mechanisms, edges, &degrees))
    };
    cases.runs(&[], "G as it is", says(3, 4, [1, 2, 1]));
    cases.stops(6, "degrees moved on, so a repeat", says(3, 4, [0, 2, 2]));
    cases.stops(42, "a mechanism less", says(2, 4, [1, 2, 1]));
    cases.stops(42, "a mechanism more", says(4, 4, [1, 2, 1]));
    cases.stops(42, "an edge less", says(3, 3, [1, 2, 1]));
    cases.stops(42, "an edge more", says(3, 5, [1, 2, 1]));
    // Three detectors weigh as much as a mechanism.
    cases.stops(42, "an edge as a mechanism", says(4, 1, [1, 2, 1]));
    cases.stops(42, "degrees of 3 for 4 edges", says(3, 4, [1, 1, 1]));
    cases.stops(42, "degrees of 5 for 4 edges", says(3, 4, [1, 2, 2]));
    let wrapping: [[u32; 3]; 4] = [
        [u32::MAX, 4, 1],
        [4, u32::MAX, 1],
        [1 << 31, 1 << 31, 4],
        [u32::MAX, u32::MAX, 6],
    ];
    for degrees in wrapping {
        let name = format!("degrees {degrees:?} sum to 4 edges modulo 2^32");
        cases.stops(42, &name, says(3, 4, degrees));
    }
    // Counts whose length is 12 or 24 modulo 2^32.
    for (mechanisms, edges, length) in [
        (0, 1 << 30, 12),
        (1 << 30, 0, 12),
        (1, 1 << 30, 24),
        ((1 << 30) + 1, 0, 24),
        (357_913_941, 1, 12),
        (u32::MAX, 3, 12),
        (0, u32::MAX, 12),
        (u32::MAX, u32::MAX, 12),
    ] {
        let name = format!("{mechanisms} mechanisms and {edges} edges in {length} bytes");
        let mut payload = [1, mechanisms, edges].map(u32::to_le_bytes).concat();
        payload.resize(length, 0);
        cases.stops(42, &name, Stream::new().record(MODEL, &payload));
    }
    let settings = Settings::plain(0, 2).payload();
    for length in [0, 1, 48, 50, 98] {
        let name = format!("settings of {length} bytes");
        let mut payload = settings.clone();
        payload.resize(length, 0);
        cases.stops(42, &name, Stream::new().record(SETTINGS, &payload));
    }
    for length in [0, 1, 7] {
        let name = format!("a shot of {length} bytes");
        cases.stops(42, &name, Stream::of_g().record(SHOT, &vec![0; length]));
    }
    cases.runs(
        &[20],
        "a shot of 8 bytes",
        Stream::of_g().record(SHOT, &[0; 8]),
    );
}

/// 43.
pub(super) fn early(cases: &mut Cases) {
    let (g, plain) = (Model::g(), Settings::plain(0, 2));
    cases.stops(43, "a shot first", Stream::new().shot(7, &[1, 0]));
    cases.stops(43, "a shot of 8 bytes first", Stream::new().shot(7, &[]));
    let rest = |stream: Stream| stream.shot(7, &[1, 0]).model(&g).settings(&plain);
    cases.stops(
        43,
        "a shot behind a model alone",
        rest(Stream::new().model(&g)),
    );
    cases.stops(
        43,
        "a shot behind settings alone",
        rest(Stream::new().settings(&plain)),
    );
    cases.stops(
        43,
        "two models are no settings",
        rest(Stream::new().model(&g).model(&g)),
    );
    cases.stops(
        43,
        "settings twice are no model",
        rest(Stream::new().settings(&plain).settings(&plain)),
    );
    cases.stops(
        43,
        "a bad syndrome first",
        Stream::new().model(&g).shot(7, &[2]),
    );
}

/// A model of so many edges: 128 detectors a mechanism, and the rest on one more.
fn of_edges(edges: u32) -> Model {
    let all: Vec<u32> = (0..128).collect();
    let mut mechanisms: Vec<(f64, &[u32])> = vec![(1.0, &all[..]); edges as usize / 128];
    let rest = &all[..edges as usize % 128];
    if !rest.is_empty() {
        mechanisms.push((1.0, rest));
    }
    Model::new(128, &mechanisms)
}

pub(super) fn of_mechanisms(mechanisms: usize) -> Model {
    Model::new(1, &vec![(1.0, &[][..]); mechanisms])
}

/// 44, on both sides of each room.
pub(super) fn room(cases: &mut Cases) {
    let plain = Settings::plain(0, 2);
    let checks = |count: u32| Model::new(count, &[(1.0, &[0])]);
    let with = |model: &Model| {
        let syndrome = vec![0; model.checks.min(129) as usize];
        Stream::new()
            .settings(&plain)
            .model(model)
            .shot(0, &syndrome)
    };
    cases.runs(&[0], "128 checks", with(&checks(128)));
    for count in [129, 130, 256, 65_536, 65_537, u32::MAX] {
        cases.stops(44, &format!("{count} checks"), with(&checks(count)));
    }
    cases.runs(&[0], "256 mechanisms", with(&of_mechanisms(256)));
    cases.stops(44, "257 mechanisms", with(&of_mechanisms(257)));
    cases.runs(&[0], "512 edges", with(&of_edges(512)));
    cases.stops(44, "513 edges", with(&of_edges(513)));
    let legs = |count: u32| {
        let settings = Settings::relayed(0, 1, count, 1, 1);
        Stream::of_g().settings(&settings).shot(7, &[1, 0])
    };
    cases.runs(&[0], "16 legs", legs(16));
    for count in [17, 18, 256, 65_535, 65_536, u32::MAX] {
        cases.stops(44, &format!("{count} legs"), legs(count));
    }
    cases.runs(
        &[20, 0],
        "a shot of 136 bytes, for 2 checks and for 128",
        Stream::of_g()
            .shot(7, &[0; 128])
            .model(&checks(128))
            .shot(7, &[0; 128]),
    );
    for length in [129, 130, 248, 1000] {
        let name = format!("a shot of {} bytes", 8 + length);
        let syndrome = vec![0; length];
        cases.stops(44, &name, Stream::of_g().shot(7, &syndrome));
        let full = Stream::new().settings(&plain).model(&checks(128));
        cases.stops(44, &name, full.shot(7, &syndrome));
    }
}

/// Records longer than any that the room has, judged by what they say all the same.
pub(super) fn long_records(cases: &mut Cases) {
    let good = || Stream::of_g().shot(7, &[1, 0]);
    let again = |stream: Stream| stream.shot(7, &[1, 0]);
    cases.stops(
        41,
        "an unknown kind of 6,000 bytes",
        again(good().record(9, &[7; 6000])),
    );
    cases.stops(
        42,
        "settings of 6,000 bytes",
        again(good().record(SETTINGS, &[0; 6000])),
    );
    cases.stops(
        44,
        "a shot of 6,000 bytes",
        again(good().record(SHOT, &[0; 6000])),
    );
    cases.stops(
        43,
        "a shot of 6,000 bytes first",
        Stream::new().record(SHOT, &[0; 6000]),
    );
    cases.stops(
        42,
        "a model of 6,000 zeroes",
        again(good().record(MODEL, &[0; 6000])),
    );
    let large = of_mechanisms(500);
    cases.stops(44, "500 mechanisms", again(good().model(&large)));
    let mut degrees = vec![0; 500];
    degrees[499] = 1;
    cases.stops(
        42,
        "500 mechanisms, of which the last has a degree too much",
        again(good().record(MODEL, &large.payload_saying(500, 0, &degrees))),
    );
    degrees[498] = u32::MAX;
    cases.stops(
        42,
        "500 mechanisms, degrees that sum to no edges modulo 2^32",
        again(good().record(MODEL, &large.payload_saying(500, 0, &degrees))),
    );
    // 256 mechanisms and 513 edges are 4 bytes more than the room's longest payload.
    let mut most = Model::new(128, &[]);
    for mechanism in 0..256u32 {
        let first = mechanism % 128;
        let last = if mechanism == 255 { 3 } else { 2 };
        most.mechanisms.push(Mechanism {
            prior: 1.0,
            detectors: (0..last).map(|k| (first + 5 * k) % 128).collect(),
        });
    }
    cases.stops(
        44,
        "256 mechanisms and 513 edges",
        again(good().model(&most)),
    );
    most.mechanisms[255].detectors.pop();
    cases.runs(
        &[0, 20, 0],
        "256 mechanisms and 512 edges, and a smaller model after",
        again(good().model(&most))
            .model(&Model::g())
            .shot(7, &[1, 0]),
    );
}

/// Two models, two settings, good and refused shots.
fn both_twice() -> Stream {
    Stream::of_g()
        .shot(7, &[1, 0])
        .shot(8, &[1])
        .model(&Model::new(1, &[(2.0, &[0])]))
        .shot(9, &[2])
        .shot(10, &[1])
        .settings(&Settings::relayed(1, 1, 2, 1, 2))
        .shot(11, &[1])
        .shot(12, &[])
        .shot(13, &[0])
}

/// That stream, and it cut at every byte.
pub(super) fn every_cut(cases: &mut Cases) {
    let whole = both_twice();
    let codes = [0, 20, 21, 0, 0, 20, 0];
    cases.runs(&codes, "two models, two settings", whole.clone());
    // Where each record begins, with the shots before it.
    let mut starts = BTreeMap::new();
    let (mut at, mut shots) = (0, 0);
    while at < whole.bytes.len() {
        starts.insert(at, shots);
        let length = u32::from_le_bytes(whole.bytes[at..at + 4].try_into().expect("4 bytes"));
        shots += usize::from(whole.bytes[at + 4] == SHOT as u8);
        at += 6 + length as usize;
    }
    for length in 0..whole.bytes.len() {
        let part = Stream::new().raw(&whole.bytes[..length]);
        let name = format!("two models, two settings, cut after {length} bytes");
        match starts.get(&length) {
            Some(&shots) => cases.runs(&codes[..shots], &name, part),
            None => cases.stops(40, &name, part),
        }
    }
}
