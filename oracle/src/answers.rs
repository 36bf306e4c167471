//! What the Rust answers, in the reference's numbers, whichever copy of the files gave it.

use crate::bits::bits;
use crate::line::Line;
use pecos_decoder_core::errors::DecoderError;

/// A refusal's number and place in the reference's table; place 0 where it has none.
#[derive(Clone, Copy, Debug, PartialEq, Eq)]
pub struct Refusal {
    pub code: usize,
    pub place: usize,
}

impl Refusal {
    /// As the proved calls answer it.
    pub fn pair(self) -> (u64, u64) {
        (self.code as u64, self.place as u64)
    }
}

/// The five lists of a graph: the Rust's pairs taken apart, without the message numbers of the check entries.
#[derive(Clone, Debug, PartialEq, Eq)]
pub struct GraphLists {
    pub check_var: Vec<usize>,
    pub check_offset: Vec<usize>,
    pub var_check: Vec<usize>,
    pub var_message: Vec<usize>,
    pub var_offset: Vec<usize>,
}

/// An executed leg; one that converged has a weight and a correction.
#[derive(Clone, Debug)]
pub struct Leg {
    pub iterations: usize,
    pub found: Option<(f64, Vec<u8>)>,
}

/// A decode's outcome; one that converged has a weight.
#[derive(Clone, Debug)]
pub struct Decoded {
    pub weight: Option<f64>,
    pub total: usize,
    /// The messages that its iterations wrote; none of a copy that does not count them.
    pub stores: Option<u64>,
    pub legs: Vec<Leg>,
    pub correction: Vec<u8>,
    pub posterior: Vec<f64>,
}

impl GraphLists {
    /// Read the lists out of the graph's debugging text, which alone shows the private offsets.
    ///
    /// # Panics
    ///
    /// If a check entry's message number is not its own place: then it could not be left out.
    pub fn from_debug(text: &str) -> Self {
        let (check_var, numbers) = pairs(&numbers_of(text, "check_data"));
        assert!(
            numbers.iter().copied().eq(0..check_var.len()),
            "a check entry of the Rust's graph has another message number than its place"
        );
        let (var_check, var_message) = pairs(&numbers_of(text, "var_data"));
        Self {
            check_var,
            check_offset: numbers_of(text, "check_offset"),
            var_check,
            var_message,
            var_offset: numbers_of(text, "var_offset"),
        }
    }

    pub fn write(&self, line: &mut Line) {
        for list in [
            &self.check_var,
            &self.check_offset,
            &self.var_check,
            &self.var_message,
            &self.var_offset,
        ] {
            line.counts(list);
        }
    }
}

fn numbers_of(text: &str, field: &str) -> Vec<usize> {
    let name = format!(" {field}: [");
    let start = text.find(&name).expect("the field in the debugging text") + name.len();
    let end = start + text[start..].find(']').expect("the end of the list");
    text[start..end]
        .split(|c: char| !c.is_ascii_digit())
        .filter(|word| !word.is_empty())
        .map(|word| word.parse().expect("a number"))
        .collect()
}

fn pairs(flat: &[usize]) -> (Vec<usize>, Vec<usize>) {
    flat.chunks_exact(2).map(|pair| (pair[0], pair[1])).unzip()
}

impl Decoded {
    /// Whether two copies came to the same, bit for bit, whatever they counted.
    pub fn is_same(&self, other: &Self) -> bool {
        let counts = |one: &Self| (one.total, one.weight.map(f64::to_bits));
        let legs = |one: &Self| -> Vec<_> {
            let legs = one.legs.iter();
            legs.map(|leg| {
                let found = leg.found.as_ref();
                let found =
                    found.map(|(weight, correction)| (weight.to_bits(), correction.clone()));
                (leg.iterations, found)
            })
            .collect()
        };
        counts(self) == counts(other)
            && legs(self) == legs(other)
            && self.correction == other.correction
            && bits(&self.posterior) == bits(&other.posterior)
    }

    /// # Panics
    ///
    /// If the messages were not counted.
    pub fn write(&self, line: &mut Line) {
        line.count(usize::from(self.weight.is_some()));
        line.count(self.legs.len());
        line.count(self.total);
        line.number(self.stores.expect("the messages were counted"));
        line.float(self.weight.unwrap_or(0.0));
        for leg in &self.legs {
            line.count(if leg.found.is_some() { 2 } else { 1 });
            line.count(leg.iterations);
            line.float(leg.found.as_ref().map_or(0.0, |(weight, _)| *weight));
        }
        for leg in &self.legs {
            match &leg.found {
                Some((_, correction)) => line.bytes(correction),
                None => line.bytes(&vec![0; self.correction.len()]),
            }
        }
        line.bytes(&self.correction);
        line.floats(&self.posterior);
    }
}

/// The reference's number and place for an error of the Rust. Its message tells the cases apart,
/// for the error type has few; a message of no known form stops the oracle.
pub fn refusal(error: &DecoderError, mechanisms: usize) -> Refusal {
    let (code, place) = match error {
        DecoderError::InvalidDimensions { .. } => (20, 0),
        DecoderError::InvalidSyndrome(text) => (21, number_after(text, "entry")),
        DecoderError::InternalError(text) => (30, number_after(text, "mechanism")),
        DecoderError::InvalidConfiguration(text) => configuration(text, mechanisms),
    };
    Refusal { code, place }
}

fn configuration(text: &str, mechanisms: usize) -> (usize, usize) {
    let words: Vec<&str> = text.split_whitespace().collect();
    match words.as_slice() {
        ["mechanism", mechanism, "probability", ..] => (4, number(mechanism)),
        ["mechanism", mechanism, "detector", ..] => (5, number(mechanism)),
        ["mechanism", mechanism, "repeats", ..] => (6, number(mechanism)),
        ["Relay-BP", "alpha", ..] => (10, 0),
        ["Relay-BP", "gamma0", ..] => (11, 0),
        ["Relay-BP", "pre_iterations", ..] => (12, 0),
        ["Relay-BP", "num_legs", ..] => (13, 0),
        ["Relay-BP", "leg_iterations", ..] => (14, 0),
        ["Relay-BP", "gamma_range", ..] => (15, 0),
        ["Relay-BP", "stop_after_converged", ..] => (16, 0),
        ["Relay-BP", "explicit_gammas", ..] => (17, 0),
        ["Relay-BP", "explicit", "gamma", "set", _, "has", ..] => (18, 0),
        [
            "Relay-BP",
            "explicit",
            "gamma",
            "set",
            set,
            "mechanism",
            mechanism,
            ..,
        ] => (19, number(set) * mechanisms + number(mechanism)),
        ["BpScratch", ..] => (22, 0),
        [.., "exceeds", "the", "u32", "index", "space"] => (1, 0),
        _ => panic!("an error of no known form: {text}"),
    }
}

fn number_after(text: &str, name: &str) -> usize {
    let mut words = text.split_whitespace();
    words.find(|word| *word == name).expect("the place's name");
    number(words.next().expect("the place"))
}

fn number(word: &str) -> usize {
    let digits = word.trim_end_matches(|c: char| !c.is_ascii_digit());
    digits.parse().expect("a place is a number")
}
