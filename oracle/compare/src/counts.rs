//! How many comparisons held.

use proved::Answer;
use std::collections::BTreeMap;

/// As much of a failed comparison is told as this many characters hold, unless its round is run alone.
const TOLD: usize = 2000;

#[derive(Default)]
struct Tally {
    passed: u64,
    failed: u64,
    /// How often each number of refusal was wanted; 0 for none.
    wanted: BTreeMap<u64, u64>,
}

/// The greatest distance, and where it was.
#[derive(Default)]
struct Furthest {
    distance: f64,
    place: String,
}

/// The comparisons of one kind, under a name each, in the order in which they first came.
pub struct Counts {
    tallies: Vec<(&'static str, Tally)>,
    notes: Vec<(&'static str, u64)>,
    furthest: Vec<(&'static str, Furthest)>,
    /// How to do the round again that is under way.
    again: String,
    tells_all: bool,
}

impl Counts {
    pub fn new(tells_all: bool) -> Self {
        Self {
            tallies: Vec::new(),
            notes: Vec::new(),
            furthest: Vec::new(),
            again: String::new(),
            tells_all,
        }
    }

    pub fn start_round(&mut self, again: String) {
        self.again = again;
    }

    /// One comparison, with the answer that was wanted. What fails is told.
    pub fn check(
        &mut self,
        name: &'static str,
        wanted: Answer,
        holds: bool,
        told: impl FnOnce() -> String,
    ) {
        let tally = entry(&mut self.tallies, name);
        let number = wanted.err().map_or(0, |(number, _)| number);
        *tally.wanted.entry(number).or_insert(0) += 1;
        if holds {
            tally.passed += 1;
            return;
        }
        tally.failed += 1;
        let mut text = told();
        if !self.tells_all
            && let Some((end, _)) = text.char_indices().nth(TOLD)
        {
            text.truncate(end);
            text += " .. (the rest where the round is run alone)";
        }
        println!("FAIL {name}: {text}\n  again: {}", self.again);
    }

    /// Counts something that is neither right nor wrong.
    pub fn note(&mut self, name: &'static str, times: u64) {
        *entry(&mut self.notes, name) += times;
    }

    /// Keeps the greatest of some distances, and where it was.
    pub fn see(&mut self, name: &'static str, distance: f64, place: impl FnOnce() -> String) {
        let furthest = entry(&mut self.furthest, name);
        if distance > furthest.distance || furthest.place.is_empty() {
            *furthest = Furthest {
                distance,
                place: place(),
            };
        }
    }

    pub fn passed(&self) -> u64 {
        self.tallies.iter().map(|(_, tally)| tally.passed).sum()
    }

    pub fn failed(&self) -> u64 {
        self.tallies.iter().map(|(_, tally)| tally.failed).sum()
    }

    /// A line for each name.
    pub fn print(&self) {
        for (name, tally) in &self.tallies {
            let Tally { passed, failed, .. } = tally;
            println!("{name}: {passed} passed, {failed} failed{}", tally.split());
        }
        for (name, times) in &self.notes {
            println!("{name}: {times}");
        }
        for (name, Furthest { distance, place }) in &self.furthest {
            println!("{name}: at most {distance:.6} ({place})");
        }
    }
}

impl Tally {
    /// How many were to be taken and how many to be refused, where any was refused.
    fn split(&self) -> String {
        let refused: Vec<String> = self
            .wanted
            .iter()
            .filter(|(number, _)| **number != 0)
            .map(|(number, count)| format!("{count} with {number}"))
            .collect();
        if refused.is_empty() {
            return String::new();
        }
        let taken = self.wanted.get(&0).unwrap_or(&0);
        format!(" ({taken} taken; refused: {})", refused.join(", "))
    }
}

fn entry<'a, T: Default>(list: &'a mut Vec<(&'static str, T)>, name: &'static str) -> &'a mut T {
    let place = list.iter().position(|(other, _)| *other == name);
    let place = place.unwrap_or_else(|| {
        list.push((name, T::default()));
        list.len() - 1
    });
    &mut list[place].1
}
