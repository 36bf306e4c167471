//! The records of a stream, and their bytes.

use oracle::decode_cases;
use oracle::exact::drive;
use oracle::model::{self, parities};
use oracle::splitmix::Rule;

#[derive(Clone, Debug)]
pub struct Mechanism {
    pub prior: f64,
    pub detectors: Vec<u32>,
}

#[derive(Clone, Debug)]
pub struct Model {
    pub checks: u32,
    pub mechanisms: Vec<Mechanism>,
}

#[derive(Clone, Copy, Debug)]
pub struct Settings {
    /// Said by the record's kind, and not in the payload.
    pub rule: Rule,
    /// 0 is Flooding, 1 CheckSerial.
    pub schedule: u8,
    pub alpha: f64,
    pub gamma0: f64,
    pub pre: u32,
    pub legs: u32,
    pub leg_iterations: u32,
    pub low: f64,
    pub high: f64,
    pub stop: u32,
}

pub const MODEL: u16 = 1;
/// Settings with the draw from the seed xor the leg.
pub const SETTINGS: u16 = 2;
pub const SHOT: u16 = 3;
/// The same bytes with the draw by shot.
pub const SETTINGS_BY_SHOT: u16 = 4;

impl Model {
    pub fn new(checks: u32, mechanisms: &[(f64, &[u32])]) -> Self {
        let mechanisms = mechanisms.iter().map(|(prior, detectors)| Mechanism {
            prior: *prior,
            detectors: detectors.to_vec(),
        });
        Self {
            checks,
            mechanisms: mechanisms.collect(),
        }
    }

    /// The reference's G.
    pub fn g() -> Self {
        Self::new(2, &[(4.0, &[0]), (4.0, &[0, 1]), (4.0, &[1])])
    }

    /// A model of probabilities, with the log ratios that the Rust makes of them.
    pub fn of(model: &model::Model) -> Self {
        let priors = drive::priors(&model.probabilities);
        let mechanisms = priors.into_iter().zip(model.detectors.clone());
        Self {
            checks: model.checks as u32,
            mechanisms: mechanisms
                .map(|(prior, detectors)| Mechanism { prior, detectors })
                .collect(),
        }
    }

    pub fn edges(&self) -> usize {
        let degrees = self.mechanisms.iter().map(|m| m.detectors.len());
        degrees.sum()
    }

    /// The parities that a set of mechanisms leaves on the checks.
    pub fn syndrome_of(&self, bits: &[bool]) -> Vec<u8> {
        let detectors = self.mechanisms.iter().map(|m| &m.detectors);
        parities(self.checks as usize, detectors.zip(bits))
    }

    pub fn payload(&self) -> Vec<u8> {
        let degrees: Vec<u32> = self
            .mechanisms
            .iter()
            .map(|mechanism| mechanism.detectors.len() as u32)
            .collect();
        self.payload_saying(self.mechanisms.len() as u32, self.edges() as u32, &degrees)
    }

    /// The payload with counts and degrees that need not be the model's.
    pub fn payload_saying(&self, mechanisms: u32, edges: u32, degrees: &[u32]) -> Vec<u8> {
        let mut bytes = Vec::new();
        for count in [self.checks, mechanisms, edges] {
            bytes.extend(count.to_le_bytes());
        }
        for (mechanism, degree) in self.mechanisms.iter().zip(degrees) {
            bytes.extend(mechanism.prior.to_le_bytes());
            bytes.extend(degree.to_le_bytes());
        }
        for detector in self.mechanisms.iter().flat_map(|m| &m.detectors) {
            bytes.extend(detector.to_le_bytes());
        }
        bytes
    }
}

impl Settings {
    /// The plain settings of a case, with any schedule.
    pub fn plain(schedule: u8, pre: u32) -> Self {
        Self {
            schedule,
            ..Self::of(&decode_cases::Settings::plain(false, pre as usize))
        }
    }

    /// Relayed legs with the published memory.
    pub fn relayed(schedule: u8, pre: u32, legs: u32, leg_iterations: u32, stop: u32) -> Self {
        Self {
            gamma0: 0.1,
            legs,
            leg_iterations,
            low: -0.24,
            high: 0.66,
            stop,
            ..Self::plain(schedule, pre)
        }
    }

    /// The same, drawn by shot.
    pub fn by_shot(self) -> Self {
        Self {
            rule: Rule::ByShot,
            ..self
        }
    }

    /// The kind of their record.
    pub fn kind(&self) -> u16 {
        match self.rule {
            Rule::ByShot => SETTINGS_BY_SHOT,
            Rule::SeedXorLeg => SETTINGS,
        }
    }

    /// Settings of a case that draws its gammas.
    ///
    /// # Panics
    ///
    /// If they have a clip or explicit sets, which no record says.
    pub fn of(case: &decode_cases::Settings) -> Self {
        assert_eq!(case.clip, None);
        Self {
            rule: case.rule().expect("a rule of the draw"),
            schedule: u8::from(case.serial),
            alpha: case.alpha,
            gamma0: case.gamma0,
            pre: case.pre_iterations as u32,
            legs: case.num_legs as u32,
            leg_iterations: case.leg_iterations as u32,
            low: case.low,
            high: case.high,
            stop: case.stop as u32,
        }
    }

    pub fn payload(&self) -> Vec<u8> {
        let mut bytes = vec![self.schedule];
        bytes.extend(self.alpha.to_le_bytes());
        bytes.extend(self.gamma0.to_le_bytes());
        bytes.extend(self.pre.to_le_bytes());
        bytes.extend(self.legs.to_le_bytes());
        bytes.extend(self.leg_iterations.to_le_bytes());
        bytes.extend(self.low.to_le_bytes());
        bytes.extend(self.high.to_le_bytes());
        bytes.extend(self.stop.to_le_bytes());
        bytes
    }
}

/// A stream that grows record by record.
#[derive(Clone, Debug, Default)]
pub struct Stream {
    pub bytes: Vec<u8>,
}

impl Stream {
    pub fn new() -> Self {
        Self::default()
    }

    /// The reference's model and settings of its 141 bytes, without the shot.
    pub fn of_g() -> Self {
        Self::new()
            .model(&Model::g())
            .settings(&Settings::plain(0, 2))
    }

    pub fn record(self, kind: u16, payload: &[u8]) -> Self {
        self.record_saying(payload.len() as u32, kind, payload)
    }

    /// A record whose head says a length that need not be the payload's.
    pub fn record_saying(mut self, length: u32, kind: u16, payload: &[u8]) -> Self {
        self.bytes.extend(length.to_le_bytes());
        self.bytes.extend(kind.to_le_bytes());
        self.bytes.extend(payload);
        self
    }

    pub fn model(self, model: &Model) -> Self {
        self.record(MODEL, &model.payload())
    }

    pub fn settings(self, settings: &Settings) -> Self {
        self.record(settings.kind(), &settings.payload())
    }

    pub fn shot(self, seed: u64, syndrome: &[u8]) -> Self {
        let mut payload = seed.to_le_bytes().to_vec();
        payload.extend(syndrome);
        self.record(SHOT, &payload)
    }

    pub fn raw(mut self, bytes: &[u8]) -> Self {
        self.bytes.extend(bytes);
        self
    }
}
