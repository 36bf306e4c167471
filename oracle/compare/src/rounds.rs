//! Rounds of cases. What a case is depends on the seed, its part and its number alone, so that any round can be had again by
//! itself, and a run that was ended by the clock by its count of rounds.

use crate::counts::Counts;
use crate::progress::Progress;
use oracle::splitmix::SplitMix64;
use std::any::Any;
use std::ops::Range;
use std::panic::{AssertUnwindSafe, catch_unwind};
use std::time::{Duration, Instant};

/// What is compared under one name of the command.
pub struct Kind {
    pub name: &'static str,
    pub parts: &'static [Part],
}

/// A sequence of cases.
pub struct Part {
    pub rate: Rate,
    /// One case, by its number and its own source of random numbers.
    pub case: fn(u64, &mut SplitMix64, &mut Counts),
}

#[derive(Clone, Copy)]
pub enum Rate {
    /// As many cases in each round.
    Each(u64),
    /// A case in each of as many rounds, the last of them.
    Every(u64),
    /// As many cases, all of them in the first round.
    First(u64),
}

impl Rate {
    fn cases(self, round: u64) -> Range<u64> {
        match self {
            Self::Each(count) => round * count..(round + 1) * count,
            Self::Every(rounds) if (round + 1).is_multiple_of(rounds) => {
                round / rounds..round / rounds + 1
            }
            Self::First(count) if round == 0 => 0..count,
            _ => 0..0,
        }
    }
}

/// Which rounds a run has.
#[derive(Clone, Copy)]
pub enum Length {
    Time(Duration),
    Rounds(u64),
    Alone(u64),
}

/// Runs them, with the counts of each kind and how many rounds there were.
pub fn run(kinds: &[(usize, &Kind)], length: Length, seed: u64) -> (Vec<Counts>, u64) {
    let start = Instant::now();
    let (first, most) = match length {
        Length::Time(_) => (0, u64::MAX),
        Length::Rounds(count) => (0, count),
        Length::Alone(round) => (round, round.saturating_add(1)),
    };
    let tells_all = matches!(length, Length::Alone(_));
    let mut counts: Vec<Counts> = kinds.iter().map(|_| Counts::new(tells_all)).collect();
    let mut progress = Progress::new(start, length);
    let mut round = first;
    while round < most && !matches!(length, Length::Time(time) if start.elapsed() >= time) {
        for ((number, kind), counts) in kinds.iter().zip(&mut counts) {
            one_round(*number, kind, round, seed, counts);
        }
        round += 1;
        progress.tell(round, || counts.iter().map(Counts::failed).sum());
    }
    progress.end();
    (counts, round - first)
}

fn one_round(number: usize, kind: &Kind, round: u64, seed: u64, counts: &mut Counts) {
    counts.start_round(format!(
        "oracle/beside {} --round {round} --seed {seed}",
        kind.name
    ));
    for (place, part) in kind.parts.iter().enumerate() {
        for case in part.rate.cases(round) {
            let mut random = source(seed, (number * 16 + place) as u64, case);
            let run = AssertUnwindSafe(|| (part.case)(case, &mut random, counts));
            if let Err(why) = catch_unwind(run) {
                counts.check("cases that broke off", Ok(()), false, || said(why.as_ref()));
            }
        }
    }
}

/// The random numbers of a case: a generator whose state is itself drawn, so that two cases share none.
fn source(seed: u64, part: u64, case: u64) -> SplitMix64 {
    let of_part = SplitMix64::new(SplitMix64::new(seed).draw().wrapping_add(part)).draw();
    SplitMix64::new(SplitMix64::new(of_part.wrapping_add(case)).draw())
}

fn said(panic: &(dyn Any + Send)) -> String {
    let text = panic.downcast_ref::<String>().map(String::as_str);
    let text = text.or(panic.downcast_ref::<&str>().copied());
    text.unwrap_or("no reason given").to_string()
}
