//! Detectors by how they rise. Sparse building compares a detector with the last one alone while they rise, and with all before it from the
//! first that does not; so here one mechanism's detectors rise, fall, rise but for one, or name one twice, on either side of that place.

use crate::counts::Counts;
use crate::given::Given;
use crate::graphs::ask_both;
use oracle::graph_cases::GraphCase;
use oracle::model::Model;
use oracle::splitmix::SplitMix64;
use std::collections::BTreeMap;

/// How a mechanism's detectors are drawn, before any is spoiled.
#[derive(Clone, Copy)]
enum Way {
    Rising,
    Falling,
    /// Two neighbours exchanged.
    Nearly,
    /// Any two exchanged.
    Exchanged,
    NoOrder,
}

const WAYS: [Way; 5] = [
    Way::Rising,
    Way::Falling,
    Way::Nearly,
    Way::Exchanged,
    Way::NoOrder,
];

/// As many different detectors.
fn drawn(random: &mut SplitMix64, way: Way, checks: usize, degree: usize) -> Vec<u32> {
    let mut list: Vec<u32> = (0..checks as u32).collect();
    random.draw_front(&mut list, degree);
    list.truncate(degree);
    if !matches!(way, Way::NoOrder) {
        list.sort_unstable();
    }
    match way {
        Way::Falling => list.reverse(),
        Way::Nearly | Way::Exchanged if degree > 1 => {
            let one = random.between(1, degree - 1);
            let other = match way {
                Way::Nearly => one - 1,
                _ => random.below(degree),
            };
            list.swap(one, other);
        }
        _ => {}
    }
    list
}

/// One out of range, or it and all behind it, which may still rise; or a repeat: of the last one before it, or of any.
fn spoil(random: &mut SplitMix64, checks: usize, detectors: &mut [u32]) {
    if detectors.is_empty() {
        return;
    }
    let at = random.below(detectors.len());
    match random.below(6) {
        0 => detectors[at] = checks as u32 + random.pick(&[0, 0, 1, 7, 1 << 16, 1 << 31]),
        1 => detectors[at..]
            .iter_mut()
            .for_each(|detector| *detector += checks as u32),
        2 | 3 => detectors[at] = detectors[at.saturating_sub(1)],
        _ => detectors[at] = detectors[random.below(at + 1)],
    }
}

/// The first detector that was named before: where, and where that was.
fn first_repeat(detectors: &[u32]) -> Option<(usize, usize)> {
    let mut seen = BTreeMap::new();
    for (at, &detector) in detectors.iter().enumerate() {
        if let Some(before) = seen.insert(detector, at) {
            return Some((at, before));
        }
    }
    None
}

/// What the detectors are, by the first that does not rise and the first repeat.
fn sort_of(detectors: &[u32]) -> &'static str {
    let mut turns = (1..detectors.len()).filter(|&at| detectors[at] <= detectors[at - 1]);
    let Some(turn) = turns.next() else {
        return "graphs, detectors that rise";
    };
    let more = turns.count();
    match first_repeat(detectors) {
        Some((at, before)) if at == turn && before + 1 == at => {
            "graphs, the rise ends at a repeat of the last one"
        }
        Some((at, _)) if at == turn => "graphs, the rise ends at a repeat of an earlier one",
        Some((_, before)) if before < turn => "graphs, a repeat behind the rise of one in it",
        Some(_) => "graphs, a repeat behind the rise of one behind it",
        None if more + 2 == detectors.len() => "graphs, detectors that fall",
        None if more == 0 => "graphs, detectors that rise but for one",
        None => "graphs, detectors in no order",
    }
}

fn ask(name: &'static str, model: Model, random: &mut SplitMix64, counts: &mut Counts) {
    let mut given = Given::of(&GraphCase::sparse(model), random);
    ask_both(name, &mut given, counts);
}

/// A few mechanisms, one of them spoiled once in two: its fault is the first.
pub fn small(_: u64, random: &mut SplitMix64, counts: &mut Counts) {
    let checks = random.pick(&[2, 3, 4, 8, 16, 64]);
    let mechanisms = random.between(1, 4);
    let mechanism = |random: &mut SplitMix64| {
        let (way, degree) = (random.pick(&WAYS), random.between(0, checks));
        drawn(random, way, checks, degree)
    };
    let mut detectors: Vec<Vec<u32>> = (0..mechanisms).map(|_| mechanism(random)).collect();
    let subject = &mut detectors[random.below(mechanisms)];
    if random.once_in(2) {
        for _ in 0..random.between(1, 2) {
            spoil(random, checks, subject);
        }
    }
    let name = sort_of(subject);
    let model = Model {
        checks,
        probabilities: (0..mechanisms).map(|_| random.unit()).collect(),
        detectors,
    };
    ask(name, model, random, counts);
}

/// One mechanism of thousands of detectors, the last two exchanged once in two, and spoiled once in two. 65,536 of them rise at first: the long
/// way for most of those takes up to a second.
pub fn hub(case: u64, random: &mut SplitMix64, counts: &mut Counts) {
    let (degree, ways) = match case % 3 {
        0 => (1_000, &WAYS[..]),
        1 => (8_000, &WAYS[..]),
        _ => (65_536, &[Way::Rising][..]),
    };
    let checks = random.between(degree, 65_536);
    let way = random.pick(ways);
    let mut list = drawn(random, way, checks, degree);
    if random.once_in(2) {
        list.swap(degree - 2, degree - 1);
    }
    if random.once_in(2) {
        let from = random.pick(&[0, degree - 3]);
        spoil(random, checks, &mut list[from..]);
    }
    let model = Model {
        checks,
        probabilities: vec![random.unit()],
        detectors: vec![list],
    };
    ask("graphs, one mechanism of thousands", model, random, counts);
}
