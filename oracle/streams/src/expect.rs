//! What `shots` writes for a stream: the reference's rules of the stream, over the whole input as one slice, written apart from the
//! crates. The decodes are the Rust's.

use crate::decode::{Decoded, NotFinite, decode};
use crate::stream::{MODEL, Mechanism, Model, SETTINGS, SETTINGS_BY_SHOT, SHOT, Settings};
use oracle::splitmix::Rule;

/// A number of refusal.
pub type Code = u32;

/// A run over a stream.
#[derive(Default)]
pub struct Run {
    model: Option<Model>,
    settings: Option<Settings>,
    /// What became of each shot: the number that refused it, or none.
    pub shots: Vec<Option<Code>>,
    /// What was asked of each shot that was decoded.
    pub decoded: Vec<Asked>,
    /// The number that ended the run, or none.
    pub stopped: Option<Code>,
    /// All that is written.
    pub text: String,
}

/// A shot that was decoded: its number, the syndrome, and the model and the relayed legs that held then.
#[derive(Clone, Debug)]
pub struct Asked {
    pub number: usize,
    pub syndrome: Vec<u8>,
    pub model: Model,
    pub legs: u32,
}

/// The run over a whole stream.
pub fn run(stream: &[u8]) -> Run {
    let mut run = Run::default();
    let mut offset = 0;
    while offset < stream.len() {
        match run.take_record(&stream[offset..]) {
            Ok(length) => offset += length,
            Err(code) => {
                run.stopped = Some(code);
                run.text += &format!("stopped {code} {offset}\n");
                return run;
            }
        }
    }
    run.text += &format!("end {}\n", run.shots.len());
    run
}

/// A test of the table: its number where it fails.
fn test(good: bool, code: Code) -> Result<(), Code> {
    if good { Ok(()) } else { Err(code) }
}

/// 41 to 45 of a whole record, or none: the table's numbers come after these.
pub fn verdict(kind: u16, payload: &[u8], has_both: bool) -> Option<Code> {
    let answer = match kind {
        MODEL => read_model(payload).err(),
        SETTINGS | SETTINGS_BY_SHOT => read_settings(kind, payload).err(),
        SHOT if payload.len() < 8 => Some(42),
        SHOT if !has_both => Some(43),
        SHOT => (payload.len() > 136).then_some(44),
        _ => Some(41),
    };
    answer.filter(|code| *code >= 40)
}

impl Run {
    /// The record at the front of what is left, and how long it is; or the number that ends the run.
    fn take_record(&mut self, left: &[u8]) -> Result<usize, Code> {
        test(left.len() >= 6, 40)?;
        let mut fields = Fields(left);
        let (length, kind) = (fields.u32() as usize, fields.u16());
        test(fields.0.len() >= length, 40)?;
        let payload = &fields.0[..length];
        match kind {
            MODEL => self.model = Some(read_model(payload)?),
            SETTINGS | SETTINGS_BY_SHOT => self.settings = Some(read_settings(kind, payload)?),
            SHOT => self.take_shot(payload)?,
            _ => return Err(41),
        }
        Ok(6 + length)
    }

    /// The rule of the settings that hold, none where there are none.
    pub fn rule(&self) -> Option<Rule> {
        self.settings.map(|settings| settings.rule)
    }

    /// A shot: 42, 43 and 44 end the run; 20, 21, 27 and 30 are a line.
    fn take_shot(&mut self, payload: &[u8]) -> Result<(), Code> {
        test(payload.len() >= 8, 42)?;
        let (Some(model), Some(settings)) = (&self.model, &self.settings) else {
            return Err(43);
        };
        test(payload.len() <= 136, 44)?;
        let mut fields = Fields(payload);
        let (seed, syndrome) = (fields.u64(), fields.0);
        let answer = if syndrome.len() != model.checks as usize {
            Err(20)
        } else if syndrome.iter().any(|&byte| byte > 1) {
            Err(21)
        } else if settings.rule == Rule::ByShot && seed >= 1 << 48 {
            Err(27)
        } else {
            decode(model, settings, seed, syndrome).map_err(|NotFinite| 30)
        };
        let number = self.shots.len();
        self.text += &match &answer {
            Ok(decoded) => shot_line(number, decoded),
            Err(code) => format!("shot {number} refused {code}\n"),
        };
        if answer.is_ok() {
            self.decoded.push(Asked {
                number,
                syndrome: syndrome.to_vec(),
                model: model.clone(),
                legs: settings.legs,
            });
        }
        self.shots.push(answer.err());
        Ok(())
    }
}

/// A model: 42, 44, then 4, 5 and 6 mechanism by mechanism. 1 to 3 can't come: see the README.
fn read_model(payload: &[u8]) -> Result<Model, Code> {
    test(payload.len() >= 12, 42)?;
    let mut fields = Fields(payload);
    let (checks, mechanisms, edges) = (fields.u32(), fields.u32(), fields.u32());
    let wanted = 12 + 12 * u64::from(mechanisms) + 4 * u64::from(edges);
    test(payload.len() as u64 == wanted, 42)?;
    let heads: Vec<(f64, u32)> = (0..mechanisms)
        .map(|_| (fields.f64(), fields.u32()))
        .collect();
    let sum: u64 = heads.iter().map(|(_, degree)| u64::from(*degree)).sum();
    test(sum == u64::from(edges), 42)?;
    test(checks <= 128 && mechanisms <= 256 && edges <= 512, 44)?;
    let mut model = Model::new(checks, &[]);
    for (prior, degree) in heads {
        test((-30.0..=30.0).contains(&prior), 4)?;
        let mut detectors = Vec::new();
        for _ in 0..degree {
            let detector = fields.u32();
            test(detector < checks, 5)?;
            test(!detectors.contains(&detector), 6)?;
            detectors.push(detector);
        }
        model.mechanisms.push(Mechanism { prior, detectors });
    }
    Ok(model)
}

/// Settings of either kind: 42, 44, 45, then 10 to 16. 13 can't come: more legs than its limit are beyond the room.
fn read_settings(kind: u16, payload: &[u8]) -> Result<Settings, Code> {
    test(payload.len() == 49, 42)?;
    let mut fields = Fields(payload);
    // The fields are read in the order in which they stand here.
    let settings = Settings {
        rule: if kind == SETTINGS {
            Rule::SeedXorLeg
        } else {
            Rule::ByShot
        },
        schedule: fields.u8(),
        alpha: fields.f64(),
        gamma0: fields.f64(),
        pre: fields.u32(),
        legs: fields.u32(),
        leg_iterations: fields.u32(),
        low: fields.f64(),
        high: fields.f64(),
        stop: fields.u32(),
    };
    let Settings {
        rule: _,
        schedule,
        alpha,
        gamma0,
        pre,
        legs,
        leg_iterations,
        low,
        high,
        stop,
    } = settings;
    test(legs <= 16, 44)?;
    test(schedule <= 1, 45)?;
    test(alpha.is_finite() && alpha > 0.0, 10)?;
    test(gamma0.is_finite(), 11)?;
    test((1..=65_535).contains(&pre), 12)?;
    test(leg_iterations <= 65_535, 14)?;
    test(leg_iterations > 0 || legs == 0, 14)?;
    let ends = low.is_finite() && high.is_finite();
    test(ends && (high - low).is_finite() && low <= high, 15)?;
    test(stop > 0, 16)?;
    Ok(settings)
}

/// The line of a shot that was decoded. Without bits it ends after the count of legs.
fn shot_line(number: usize, decoded: &Decoded) -> String {
    let Decoded {
        converged,
        total,
        legs,
        bits,
    } = decoded;
    let mut line = format!("shot {number} {} {total} {legs}", u8::from(*converged));
    if !bits.is_empty() {
        line.push(' ');
        line.extend(bits.iter().map(|bit| if *bit == 0 { '0' } else { '1' }));
    }
    line + "\n"
}

/// Bytes from whose front numbers are taken, little-endian. Who takes them has tested the length.
struct Fields<'a>(&'a [u8]);

impl Fields<'_> {
    fn take<const N: usize>(&mut self) -> [u8; N] {
        let (front, rest) = self.0.split_first_chunk().expect("bytes enough");
        self.0 = rest;
        *front
    }

    fn u8(&mut self) -> u8 {
        u8::from_le_bytes(self.take())
    }

    fn u16(&mut self) -> u16 {
        u16::from_le_bytes(self.take())
    }

    fn u32(&mut self) -> u32 {
        u32::from_le_bytes(self.take())
    }

    fn u64(&mut self) -> u64 {
        u64::from_le_bytes(self.take())
    }

    fn f64(&mut self) -> f64 {
        f64::from_le_bytes(self.take())
    }
}
