//! What streams came to.

use crate::expect::{Code, Run};
use std::collections::BTreeMap;

#[derive(Default)]
pub struct Counts {
    /// Streams by the number that ended them; 0 is `end`.
    streams: BTreeMap<Code, u64>,
    /// Shots by the number that refused them; 0 is a decode.
    shots: BTreeMap<Code, u64>,
}

impl Counts {
    pub fn add(&mut self, run: &Run) {
        *self.streams.entry(run.stopped.unwrap_or(0)).or_insert(0) += 1;
        for shot in &run.shots {
            *self.shots.entry(shot.unwrap_or(0)).or_insert(0) += 1;
        }
    }

    pub fn has(&self, code: Code) -> bool {
        self.streams.contains_key(&code) || self.shots.contains_key(&code)
    }

    pub fn print(&self) {
        let words = |counts: &BTreeMap<Code, u64>, none: &str| {
            let word = |(code, count): (&Code, &u64)| match code {
                0 => format!("{none} {count}"),
                _ => format!("{code}: {count}"),
            };
            counts.iter().map(word).collect::<Vec<_>>().join(", ")
        };
        println!("streams: {}", words(&self.streams, "to their end"));
        println!("shots: {}", words(&self.shots, "decoded"));
    }
}
