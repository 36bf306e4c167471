//! The calls of the crates `exports` and `exports_compare`, in safe Rust, over lists of any length: the crate of `bindings/rust` makes
//! lists that fit, and so can't ask for most refusals.

mod priors;
mod single;
pub mod streams;

use chowderkite_sys::calls;

pub use calls::count_edges;
pub use chowderkite_sys::lists::{DecodeLists as Decode, GraphLists as Lists, Size};
pub use chowderkite_sys::{chowderkite_number_of as number_of, chowderkite_place_of as place_of};
pub use priors::{build_dense_probabilities, build_sparse_probabilities, prior_of, priors_of};
pub use single::{
    alpha_good, clip_good, draw, gamma, infinity, is_finite, is_negative, is_of_shot, magnitude,
    message_sign, next_state, stores_fit, unit, wrapping_mul,
};

/// What a call answers: nothing, or a refusal's number and place in the reference's table. The place is 0 where it has none.
pub type Answer = Result<(), (u64, u64)>;

fn answer(code: u64) -> Answer {
    if code == 0 {
        Ok(())
    } else {
        Err((code % 65_536, code / 65_536))
    }
}

pub fn build_sparse(
    size: Size,
    priors: &[f64],
    detector_offsets: &[u32],
    detectors: &[u32],
    lists: &mut Lists,
) -> Answer {
    answer(calls::build_sparse(
        size.checks,
        size.mechanisms,
        size.edges,
        priors,
        detector_offsets,
        detectors,
        lists.written(),
    ))
}

pub fn build_dense(
    checks: usize,
    mechanisms: usize,
    priors: &[f64],
    matrix: &[u8],
    lists: &mut Lists,
) -> Answer {
    answer(calls::build_dense(
        checks,
        mechanisms,
        priors,
        matrix,
        lists.written(),
    ))
}

pub fn check_graph(size: Size, priors: &[f64], lists: &Lists) -> Answer {
    answer(calls::check_graph(lists.graph(size, priors)))
}

/// The lists that `beliefs` writes: the posterior is the result, the others are for work.
#[derive(Clone, Debug, Default)]
pub struct Beliefs {
    pub posterior: Vec<f64>,
    pub ewa_posterior: Vec<f64>,
    pub c_to_v: Vec<f64>,
    pub v_to_c: Vec<f64>,
}

impl Beliefs {
    /// Lists that fit, filled with one number.
    pub fn filled(size: Size, with: f64) -> Self {
        Self {
            posterior: vec![with; size.mechanisms],
            ewa_posterior: vec![with; size.mechanisms],
            c_to_v: vec![with; size.edges],
            v_to_c: vec![with; size.edges],
        }
    }

    /// All four, in the order of the call.
    pub fn each(&mut self) -> [&mut Vec<f64>; 4] {
        [
            &mut self.posterior,
            &mut self.ewa_posterior,
            &mut self.c_to_v,
            &mut self.v_to_c,
        ]
    }
}

/// A run of min-sum: what is asked for beside the graph.
#[derive(Clone, Copy, Debug)]
pub struct Run<'a> {
    pub syndrome: &'a [u8],
    pub iterations: usize,
    pub scale: f64,
    pub serial: bool,
}

pub fn beliefs(
    size: Size,
    priors: &[f64],
    lists: &Lists,
    run: Run,
    beliefs: &mut Beliefs,
) -> Answer {
    let [posterior, ewa_posterior, c_to_v, v_to_c] = beliefs.each();
    answer(calls::beliefs(
        lists.graph(size, priors),
        run.syndrome,
        run.iterations,
        run.scale,
        u8::from(run.serial),
        calls::BeliefLists {
            posterior,
            ewa_posterior,
            c_to_v,
            v_to_c,
        },
    ))
}

/// The lists that `iteration` takes and gives back; the bias is for work.
#[derive(Clone, Debug, Default)]
pub struct Step {
    pub c_to_v: Vec<f64>,
    pub v_to_c: Vec<f64>,
    pub posterior: Vec<f64>,
    pub bias: Vec<f64>,
}

impl Step {
    /// All four, in the order of the call.
    pub fn each(&mut self) -> [&mut Vec<f64>; 4] {
        [
            &mut self.c_to_v,
            &mut self.v_to_c,
            &mut self.posterior,
            &mut self.bias,
        ]
    }
}

/// A clip as the calls take it: a byte that is 0 for off, and a magnitude, which then is not to be looked at.
#[derive(Clone, Copy, Debug)]
pub struct Clip {
    pub on: u8,
    pub magnitude: f64,
}

impl Clip {
    pub const OFF: Self = Self {
        on: 0,
        magnitude: 0.0,
    };

    /// Off, or on with a magnitude.
    pub fn of(clip: Option<f64>) -> Self {
        clip.map_or(Self::OFF, |magnitude| Self { on: 1, magnitude })
    }

    /// What it means.
    pub fn meant(self) -> Option<f64> {
        (self.on != 0).then_some(self.magnitude)
    }
}

/// A single iteration: what is asked for beside the graph.
#[derive(Clone, Copy, Debug)]
pub struct Iteration<'a> {
    pub serial: bool,
    pub alpha: f64,
    pub clip: Clip,
    pub gamma: &'a [f64],
    pub syndrome: &'a [u8],
    pub order: &'a [u32],
}

pub fn iteration(
    size: Size,
    priors: &[f64],
    lists: &Lists,
    iteration: Iteration,
    step: &mut Step,
) -> Answer {
    let [c_to_v, v_to_c, posterior, bias] = step.each();
    answer(calls::iteration(
        lists.graph(size, priors),
        calls::Iteration {
            schedule: u8::from(iteration.serial),
            alpha: iteration.alpha,
            clip_on: iteration.clip.on,
            clip: iteration.clip.magnitude,
            gamma: iteration.gamma,
            syndrome: iteration.syndrome,
            order: iteration.order,
        },
        calls::IterationLists {
            c_to_v,
            v_to_c,
            posterior,
            bias,
        },
    ))
}

/// Where the gammas of relayed legs come from: drawn by a rule, or as many explicit sets.
#[derive(Clone, Copy, Debug, PartialEq, Eq)]
pub enum Source {
    ByShot,
    SeedXorLeg,
    Explicit(usize),
}

impl Source {
    /// As the calls take it: a byte, and how many sets.
    fn said(self) -> (u8, usize) {
        match self {
            Self::ByShot => (calls::BY_SHOT, 0),
            Self::SeedXorLeg => (calls::SEED_XOR_LEG, 0),
            Self::Explicit(sets) => (calls::EXPLICIT, sets),
        }
    }
}

/// The settings of Relay.
#[derive(Clone, Copy, Debug)]
pub struct Settings {
    pub serial: bool,
    pub alpha: f64,
    pub clip: Clip,
    pub gamma0: f64,
    pub pre_iterations: usize,
    pub num_legs: usize,
    pub leg_iterations: usize,
    pub low: f64,
    pub high: f64,
    pub stop: usize,
    pub source: Source,
}

impl Settings {
    fn with<'a>(self, gammas: &'a [f64]) -> calls::Settings<'a> {
        let (source, sets) = self.source.said();
        calls::Settings {
            schedule: u8::from(self.serial),
            alpha: self.alpha,
            clip_on: self.clip.on,
            clip: self.clip.magnitude,
            gamma0: self.gamma0,
            pre_iterations: self.pre_iterations,
            num_legs: self.num_legs,
            leg_iterations: self.leg_iterations,
            gamma_low: self.low,
            gamma_high: self.high,
            stop_after_converged: self.stop,
            source,
            sets,
            gammas,
        }
    }
}

/// The published operating point.
pub fn published() -> Settings {
    let (schedule, floats, counts) = calls::published();
    let [alpha, gamma0, low, high, magnitude] = floats;
    let [pre_iterations, num_legs, leg_iterations, stop, on, source] =
        counts.map(|count| count as usize);
    let on = on as u8;
    let sources = [Source::ByShot, Source::Explicit(0), Source::SeedXorLeg];
    Settings {
        serial: schedule != 0,
        alpha,
        clip: Clip { on, magnitude },
        gamma0,
        pre_iterations,
        num_legs,
        leg_iterations,
        low,
        high,
        stop,
        source: sources[source],
    }
}

/// The test of settings over as many mechanisms.
pub fn check_settings(settings: Settings, gammas: &[f64], mechanisms: usize) -> Answer {
    answer(calls::check_settings(settings.with(gammas), mechanisms))
}

/// A decode: what is asked for beside the graph and the settings.
#[derive(Clone, Copy, Debug)]
pub struct Shot<'a> {
    pub gammas: &'a [f64],
    pub syndrome: &'a [u8],
    pub seed: u64,
    pub order: Option<&'a [u32]>,
}

pub fn decode(
    size: Size,
    priors: &[f64],
    lists: &Lists,
    settings: Settings,
    shot: Shot,
    left: &mut Decode,
) -> Answer {
    let graph = lists.graph(size, priors);
    let settings = settings.with(shot.gammas);
    answer(match shot.order {
        Some(order) => calls::decode_in_order(
            graph,
            settings,
            shot.syndrome,
            shot.seed,
            order,
            left.written(),
        ),
        None => calls::decode(graph, settings, shot.syndrome, shot.seed, left.written()),
    })
}
