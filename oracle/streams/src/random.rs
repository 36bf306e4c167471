//! Random streams: several models and settings, refused shots between good ones, and in about half of them something spoiled.

use crate::stream::{MODEL, Mechanism, Model, SHOT, Settings, Stream};
use oracle::decode_cases::{TOO_LARGE, some_shot};
use oracle::exact::drive;
use oracle::model::{even_degree, random_model};
use oracle::splitmix::{Rule, SplitMix64};

const MOST_CHECKS: usize = 128;
const MOST_MECHANISMS: usize = 256;
const MOST_EDGES: usize = 512;

/// A stream of a few records, with settings of kind 2 alone.
pub fn stream(random: &mut SplitMix64) -> Vec<u8> {
    made(false, random)
}

/// The same with settings of kinds 2 and 4.
pub fn stream_of_both(random: &mut SplitMix64) -> Vec<u8> {
    made(true, random)
}

fn made(both: bool, random: &mut SplitMix64) -> Vec<u8> {
    let mut maker = Maker {
        both,
        // In a third of the streams each record may have a fault of its own.
        faults: random.once_in(3),
        ..Maker::default()
    };
    if !random.once_in(20) {
        let settings_first = random.once_in(2);
        for turn in [settings_first, !settings_first] {
            if turn {
                maker.add_settings(random);
            } else {
                maker.add_model(random);
            }
        }
    }
    for _ in 0..random.below(12) {
        match random.below(20) {
            0 | 1 => maker.add_model(random),
            2 | 3 => maker.add_settings(random),
            4 if maker.faults => maker.add_foreign(random),
            _ => maker.add_shot(random),
        }
    }
    let mut bytes = maker.stream.bytes;
    if random.once_in(3) {
        spoil(random, &maker.starts, &mut bytes);
    }
    bytes
}

#[derive(Default)]
struct Maker {
    stream: Stream,
    /// Where each record starts.
    starts: Vec<usize>,
    /// The last model, for shots that fit it.
    model: Option<Model>,
    /// Whether there are settings of kind 4 too.
    both: bool,
    faults: bool,
}

impl Maker {
    fn add(&mut self, kind: u16, payload: &[u8]) {
        self.starts.push(self.stream.bytes.len());
        self.stream = std::mem::take(&mut self.stream).record(kind, payload);
    }

    fn is_faulty(&self, random: &mut SplitMix64) -> bool {
        self.faults && random.once_in(6)
    }

    fn add_model(&mut self, random: &mut SplitMix64) {
        let mut model = some_model(random);
        let payload = if self.is_faulty(random) {
            faulty_model(random, &mut model)
        } else {
            model.payload()
        };
        self.add(MODEL, &payload);
        self.model = Some(model);
    }

    fn add_settings(&mut self, random: &mut SplitMix64) {
        let mut settings = some_settings(random);
        if self.both && random.once_in(2) {
            settings = settings.by_shot();
        }
        if self.is_faulty(random) {
            faulty_settings(random, &mut settings);
        }
        let mut payload = settings.payload();
        if self.faults && random.once_in(40) {
            payload.resize(random.pick(&[0, 1, 48, 50, 5000]), 0);
        }
        self.add(settings.kind(), &payload);
    }

    fn add_shot(&mut self, random: &mut SplitMix64) {
        let mut syndrome = match &self.model {
            Some(model) => some_syndrome(random, model),
            None => vec![0; random.below(4)],
        };
        match random.below(24) {
            0 => syndrome.push(0),
            1 => {
                syndrome.pop();
            }
            2 | 3 if !syndrome.is_empty() => {
                let at = random.below(syndrome.len());
                syndrome[at] = random.pick(&[2, 3, 128, 255]);
            }
            4 if random.once_in(4) => syndrome.resize(random.pick(&[0, 127, 128]), 1),
            _ => {}
        }
        if self.is_faulty(random) && random.once_in(3) {
            syndrome.resize(random.pick(&[129, 130, 1000, 6000]), 1);
        }
        let seed = match random.below(8) {
            // Mostly shot numbers, and some on the other side of their limit.
            0 if self.both => TOO_LARGE + random.below(64) as u64,
            1..=6 if self.both => some_shot(random),
            0 => random.below(64) as u64,
            1 => u64::MAX - random.below(64) as u64,
            _ => random.draw(),
        };
        let mut payload = seed.to_le_bytes().to_vec();
        payload.extend(syndrome);
        if self.faults && random.once_in(40) {
            payload.truncate(random.below(8));
        }
        self.add(SHOT, &payload);
    }

    /// A kind that there is not, of any length: now and then megabytes.
    fn add_foreign(&mut self, random: &mut SplitMix64) {
        let kind = random.pick(&[0, 6, 5, 256, 257, 258, 259, u16::MAX]);
        let length = long(random);
        self.add(kind, &vec![random.draw() as u8; length]);
    }
}

/// From nothing to some bytes, seldom to megabytes.
fn long(random: &mut SplitMix64) -> usize {
    match random.below(40) {
        0 => random.below(3 << 20),
        1..=3 => random.below(20_000),
        _ => random.below(100),
    }
}

/// A model of exactly these sizes, with priors of probabilities from 1 to 20 in a hundred and two detectors each or near it.
pub fn model_of_size(
    random: &mut SplitMix64,
    checks: usize,
    mechanisms: usize,
    edges: usize,
) -> Model {
    let mut all: Vec<u32> = (0..checks as u32).collect();
    let of_mechanism = |mechanism: usize| {
        let degree = even_degree(mechanism, mechanisms, edges);
        random.draw_front(&mut all, degree);
        let probability = 0.01 + 0.19 * random.unit();
        Mechanism {
            prior: drive::priors(&[probability])[0],
            detectors: all[..degree].to_vec(),
        }
    };
    Model {
        checks: checks as u32,
        mechanisms: (0..mechanisms).map(of_mechanism).collect(),
    }
}

fn some_model(random: &mut SplitMix64) -> Model {
    let mut model = match random.below(12) {
        0 => {
            let checks = random.between(1, MOST_CHECKS);
            let mechanisms = random.between(1, MOST_MECHANISMS);
            let edges = MOST_EDGES.min(mechanisms * 3.min(checks));
            model_of_size(random, checks, mechanisms, edges)
        }
        1 => model_of_size(random, MOST_CHECKS, MOST_MECHANISMS, MOST_EDGES),
        number => {
            let most = [4, 4, 8, 8, 12, 20][number % 6];
            Model::of(&random_model(random, most, most * 3 / 2))
        }
    };
    // Log ratios that no probability need have.
    if random.once_in(3) {
        for mechanism in &mut model.mechanisms {
            mechanism.prior = match random.below(6) {
                0 => random.pick(&[30.0, -30.0, 0.0, -0.0, 5e-324, -5e-324, 1e-300]),
                1 => 60.0 * random.unit() - 30.0,
                _ => 8.0 * random.unit() - 1.0,
            };
        }
    }
    model
}

/// Iteration counts stay small: a decode is paid for four times, here and in three runs of the program.
fn some_settings(random: &mut SplitMix64) -> Settings {
    let (low, high) = random.pick(&[
        (-0.24, 0.66),
        (-0.24, 0.66),
        (-0.24, 0.66),
        (-1.0, 1.0),
        (0.0, 0.0),
        (0.25, 0.25),
        (-3.0, 2.0),
    ]);
    let legs = match random.below(4) {
        0 => 0,
        1 => random.between(1, 3),
        2 => random.between(1, 8),
        _ => random.pick(&[5, 10, 15, 16]),
    };
    let mut settings = Settings {
        rule: Rule::SeedXorLeg,
        schedule: random.below(2) as u8,
        alpha: random.pick(&[0.5, 0.625, 0.75, 0.9, 1.0, 1.0, 1.0, 1.0, 1.25, 2.0]),
        gamma0: random.pick(&[0.0, 0.1, 0.1, 0.5, 0.9, -0.2, -1.0]),
        pre: random.between(1, 10) as u32,
        legs: legs as u32,
        leg_iterations: if legs == 0 && random.once_in(2) {
            random.pick(&[0, 65_535])
        } else {
            random.between(1, 8) as u32
        },
        low,
        high,
        stop: if random.once_in(8) {
            random.pick(&[17, 18, 65_536, u32::MAX])
        } else {
            random.between(1, 3) as u32
        },
    };
    // Strong enough to overflow at once, soon or never.
    match random.below(20) {
        0 => settings.alpha = random.pick(&[1e3, 1e100, 1e160, 1e308]),
        1 => settings.gamma0 = random.pick(&[1e100, -1e200, 1e308]),
        2 => (settings.low, settings.high) = random.pick(&[(-1e150, 1e150), (1e308, 1e308)]),
        _ => {}
    }
    settings
}

fn some_syndrome(random: &mut SplitMix64, model: &Model) -> Vec<u8> {
    // A spoiled model may say more checks than a shot can have.
    let in_range = |m: &Mechanism| m.detectors.iter().all(|&d| d < model.checks);
    if random.once_in(4) || !model.mechanisms.iter().all(in_range) {
        let checks = (model.checks as usize).min(MOST_CHECKS);
        return random.bits(checks);
    }
    let rarity = random.between(2, 12);
    let mut syndrome = model.syndrome_of(&random.flags(model.mechanisms.len(), rarity));
    syndrome.truncate(MOST_CHECKS);
    syndrome
}

/// The payload of a model with something wrong in it. Some of these ways leave it good.
fn faulty_model(random: &mut SplitMix64, model: &mut Model) -> Vec<u8> {
    let degrees: Vec<u32> = model
        .mechanisms
        .iter()
        .map(|mechanism| mechanism.detectors.len() as u32)
        .collect();
    let (mechanisms, edges) = (model.mechanisms.len() as u32, model.edges() as u32);
    match random.below(12) {
        0 => model.checks = random.pick(&[0, 1, 127, 128, 129, 65_537, u32::MAX]),
        1 => {
            let count = random.pick(&[255, 256, 257, 258, 500]);
            let one = Mechanism {
                prior: 1.0,
                detectors: Vec::new(),
            };
            model.mechanisms.resize(count, one);
        }
        2 => {
            let most = random.between(0, 130) as u32;
            let one = Mechanism {
                prior: 1.0,
                detectors: (0..most).collect(),
            };
            for _ in 0..random.between(1, 6) {
                model.mechanisms.push(one.clone());
            }
        }
        // Far beyond the room, and now and then megabytes.
        3 if random.once_in(4) => {
            let one = Mechanism {
                prior: 1.0,
                detectors: vec![0; random.below(3)],
            };
            let count = random.pick(&[400, 1000, 100_000]);
            model.mechanisms.resize(count, one);
        }
        4 | 5 => {
            if let Some(mechanism) = one_of(random, &mut model.mechanisms) {
                let above = 30.0_f64.next_up();
                let bad = [
                    above,
                    -above,
                    f64::NAN,
                    -f64::NAN,
                    f64::INFINITY,
                    f64::NEG_INFINITY,
                    f64::MAX,
                ];
                mechanism.prior = random.pick(&bad);
            }
        }
        6 => {
            let other = random.pick(&[model.checks, model.checks.wrapping_add(1), u32::MAX]);
            if let Some(mechanism) = one_of(random, &mut model.mechanisms) {
                match one_of(random, &mut mechanism.detectors) {
                    Some(detector) => *detector = other,
                    None => mechanism.detectors.push(other),
                }
            }
        }
        7 => {
            let mechanism = one_of(random, &mut model.mechanisms);
            if let Some(mechanism) = mechanism.filter(|m| !m.detectors.is_empty()) {
                let again = random.pick(&mechanism.detectors);
                mechanism.detectors.push(again);
            }
        }
        // Degrees and counts that say another model than the bytes have.
        8 => {
            let mut said = degrees;
            if let Some(degree) = one_of(random, &mut said) {
                *degree = degree.wrapping_add(random.pick(&[1, u32::MAX, 1 << 31]));
            }
            return model.payload_saying(mechanisms, edges, &said);
        }
        9 if degrees.len() > 1 => {
            // The sum stays, modulo 2^32 at least.
            let mut said = degrees;
            let (one, other) = (random.below(said.len() - 1), said.len() - 1);
            let step = random.pick(&[1, 1 << 31, u32::MAX - 3]);
            said[one] = said[one].wrapping_add(step);
            said[other] = said[other].wrapping_sub(step);
            return model.payload_saying(mechanisms, edges, &said);
        }
        10 => {
            let nudged = |random: &mut SplitMix64, count: u32| {
                count.wrapping_add(random.pick(&[0, 1, u32::MAX, 3, 1 << 30]))
            };
            let said = (nudged(random, mechanisms), nudged(random, edges));
            return model.payload_saying(said.0, said.1, &degrees);
        }
        _ => {
            let mut payload = model.payload();
            let length = random.below(payload.len() + 9);
            payload.resize(length, 0);
            return payload;
        }
    }
    model.payload()
}

fn one_of<'a, T>(random: &mut SplitMix64, list: &'a mut [T]) -> Option<&'a mut T> {
    if list.is_empty() {
        return None;
    }
    let at = random.below(list.len());
    list.get_mut(at)
}

fn faulty_settings(random: &mut SplitMix64, settings: &mut Settings) {
    let bad = [f64::NAN, f64::INFINITY, f64::NEG_INFINITY];
    for _ in 0..random.between(1, 2) {
        match random.below(12) {
            0 | 1 => settings.schedule = random.pick(&[2, 3, 128, 255]),
            2 => settings.legs = random.pick(&[17, 18, 256, 65_536, u32::MAX]),
            3 => settings.alpha = random.pick(&[0.0, -0.0, -1.0, f64::NAN, f64::INFINITY]),
            4 => settings.gamma0 = random.pick(&bad),
            5 => settings.pre = random.pick(&[0, 65_536, u32::MAX]),
            6 => settings.leg_iterations = random.pick(&[0, 65_536, u32::MAX]),
            7 => settings.low = random.pick(&bad),
            8 => settings.high = random.pick(&bad),
            9 => (settings.low, settings.high) = (0.5, 0.25),
            10 => (settings.low, settings.high) = (-f64::MAX, f64::MAX),
            _ => settings.stop = 0,
        }
    }
}

/// Bytes cut off, changed, put in or taken out; or a record's said length changed.
fn spoil(random: &mut SplitMix64, starts: &[usize], bytes: &mut Vec<u8>) {
    if bytes.is_empty() {
        return;
    }
    let at = random.below(bytes.len());
    match random.below(8) {
        0..=2 => bytes.truncate(at),
        3 => bytes[at] ^= 1 << random.below(8),
        4 => {
            for _ in 0..random.between(1, 3) {
                let at = random.below(bytes.len());
                bytes[at] = random.draw() as u8;
            }
        }
        5 => {
            let start = random.pick(starts);
            let said = u32::from_le_bytes(bytes[start..start + 4].try_into().expect("4 bytes"));
            let step = random.pick(&[1, u32::MAX, 4, 12, 1 << 16, 1 << 31]);
            bytes[start..start + 4].copy_from_slice(&said.wrapping_add(step).to_le_bytes());
        }
        6 => bytes.insert(at, random.draw() as u8),
        _ => {
            bytes.remove(at);
        }
    }
}
