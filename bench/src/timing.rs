//! Two ways of doing one thing, timed in alternation.

use std::time::{Duration, Instant};

/// How long the two take together before a row is done, for this pass.
const ROOM: Duration = Duration::from_millis(400);

/// The least turns of each in a pass.
const TURNS: usize = 3;

/// A turn, which says how long its timed part took.
pub type Turn<'a> = &'a mut dyn FnMut() -> Duration;

pub fn timed(work: impl FnOnce()) -> Duration {
    let start = Instant::now();
    work();
    start.elapsed()
}

/// What was timed, and the least time of each for one run, in nanoseconds.
pub struct Row {
    pub call: &'static str,
    /// The case within the call; empty where there is one alone.
    pub way: &'static str,
    pub edges: usize,
    /// Of one run, on average; none where it has no iterations.
    pub iterations: Option<f64>,
    pub proved: f64,
    pub rust: Option<f64>,
}

impl Row {
    pub fn name(&self) -> String {
        match self.way {
            "" => self.call.to_string(),
            way => format!("{}, {way}", self.call),
        }
    }

    /// A time of the row, for one edge of one iteration; a dense matrix is not walked by its edges.
    pub fn by_edge(&self, time: f64) -> Option<f64> {
        let each = self.edges as f64 * self.iterations.unwrap_or(1.0);
        (self.call != "build_dense").then_some(time / each)
    }

    /// The lesser times of two passes over one row.
    pub fn or_less(mut self, other: &Self) -> Self {
        assert_eq!((self.name(), self.edges), (other.name(), other.edges));
        self.proved = self.proved.min(other.proved);
        self.rust = self.rust.zip(other.rust).map(|(one, other)| one.min(other));
        self
    }

    /// A line of words without spaces, to be read by its columns.
    pub fn line(&self) -> String {
        let name = self.name().replace(", ", "/").replace(' ', "_");
        let number = |value: Option<f64>, digits: usize| {
            value.map_or("-".to_string(), |value| format!("{value:.digits$}"))
        };
        format!(
            "{name:36} {:>8} {:>10} {:>12.0} {:>12} {:>7}",
            self.edges,
            number(self.iterations, 1),
            self.proved,
            number(self.rust, 0),
            number(self.ratio(), 2),
        )
    }

    pub fn ratio(&self) -> Option<f64> {
        self.rust.map(|rust| self.proved / rust)
    }
}

pub const HEAD: &str =
    "what                                    edges iterations    proved ns      Rust ns   ratio";

/// Of rows whose second time is that of the proved code too, with the clip off.
pub const HEAD_OF_CLIPS: &str =
    "what                                    edges iterations        on ns       off ns   ratio";

/// What is to be timed. A turn has as many runs.
pub struct Work {
    pub call: &'static str,
    pub way: &'static str,
    pub edges: usize,
    pub iterations: Option<f64>,
    pub runs: usize,
}

impl Work {
    /// Times both. What the first does stands for the Rust.
    pub fn beside(self, rust: Turn, proved: Turn) -> Row {
        let (mut least_rust, mut least_proved) = (Duration::MAX, Duration::MAX);
        let start = Instant::now();
        let mut turns = 0;
        while turns < TURNS || start.elapsed() < ROOM {
            least_rust = least_rust.min(rust());
            least_proved = least_proved.min(proved());
            turns += 1;
        }
        self.row(least_proved, Some(least_rust))
    }

    /// Times what the Rust does not have.
    pub fn alone(self, proved: Turn) -> Row {
        let mut least = Duration::MAX;
        let start = Instant::now();
        let mut turns = 0;
        while turns < TURNS || start.elapsed() < ROOM / 2 {
            least = least.min(proved());
            turns += 1;
        }
        self.row(least, None)
    }

    fn row(self, proved: Duration, rust: Option<Duration>) -> Row {
        let one = |turn: Duration| turn.as_nanos() as f64 / self.runs as f64;
        Row {
            call: self.call,
            way: self.way,
            edges: self.edges,
            iterations: self.iterations,
            proved: one(proved),
            rust: rust.map(one),
        }
    }
}
