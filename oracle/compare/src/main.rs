//! The proved code against the Rust, in one process, on fresh random inputs: what `oracle/beside` runs. Every float is compared by its
//! bits, where a NaN is a value that is compared as it is read (`numbers`, `streams`) with any NaN. The last line says 'N passed, M failed'.

mod beliefs;
mod best;
mod chances;
mod clips;
mod counts;
mod damage;
mod decodes;
mod draws;
mod fronts;
mod given;
mod graphs;
mod limits;
mod numbers;
mod priors;
mod progress;
mod records;
mod rounds;
mod spoils;
mod steps;
mod table;

use counts::Counts;
use oracle::counted::bp::count::{NanSign, read_nan_sign};
use oracle::toolchain;
use rounds::{Kind, Length};
use std::process::ExitCode;
use std::time::Duration;

const USAGE: &str = "usage: oracle/beside [KIND] [--minutes M | --rounds N | --round R] [--seed S]
  KIND         numbers, graphs, beliefs, iterations, decodes, streams or priors; without it, everything
  --minutes M  as many rounds as M minutes hold; 1 if nothing is said
  --rounds N   the first N rounds
  --round R    round R alone, from 0, and all that is known of what fails
  --seed S     the seed, 1 if nothing is said";

/// A kind's place and a part's place in it choose the part's random numbers.
const KINDS: [Kind; 7] = [
    Kind {
        name: "numbers",
        parts: numbers::PARTS,
    },
    Kind {
        name: "graphs",
        parts: graphs::PARTS,
    },
    Kind {
        name: "beliefs",
        parts: beliefs::PARTS,
    },
    Kind {
        name: "iterations",
        parts: steps::PARTS,
    },
    Kind {
        name: "decodes",
        parts: decodes::PARTS,
    },
    Kind {
        name: "streams",
        parts: records::PARTS,
    },
    Kind {
        name: "priors",
        parts: priors::PARTS,
    },
];

struct Asked {
    kind: Option<String>,
    length: Length,
    seed: u64,
}

fn asked(words: &[String]) -> Option<Asked> {
    let mut asked = Asked {
        kind: None,
        length: Length::Time(Duration::from_secs(60)),
        seed: 1,
    };
    let mut words = words.iter();
    while let Some(word) = words.next() {
        let mut number = || words.next()?.parse::<u64>().ok();
        match word.as_str() {
            "--seed" => asked.seed = number()?,
            "--rounds" => asked.length = Length::Rounds(number()?),
            "--round" => asked.length = Length::Alone(number()?),
            "--minutes" => {
                let minutes: f64 = words.next()?.parse().ok()?;
                let time = Duration::try_from_secs_f64(minutes * 60.0).ok()?;
                asked.length = Length::Time(time);
            }
            name if KINDS.iter().any(|kind| kind.name == name) && asked.kind.is_none() => {
                asked.kind = Some(name.to_string());
            }
            _ => return None,
        }
    }
    Some(asked)
}

fn main() -> ExitCode {
    let words: Vec<String> = std::env::args().skip(1).collect();
    let Some(Asked { kind, length, seed }) = asked(&words) else {
        eprintln!("{USAGE}");
        return ExitCode::from(2);
    };
    toolchain::print();
    if let Some(code) = toolchain::refused("oracle") {
        return code;
    }
    // A NaN's sign is open in the Rust and positive in the port: the counted copy of the Rust reads it so.
    read_nan_sign(NanSign::Positive);
    let kinds: Vec<(usize, &Kind)> = KINDS
        .iter()
        .enumerate()
        .filter(|(_, one)| kind.as_ref().is_none_or(|name| name == one.name))
        .collect();
    let (counts, rounds) = rounds::run(&kinds, length, seed);
    counts.iter().for_each(Counts::print);
    match length {
        Length::Alone(round) => println!("round {round} alone, from seed {seed}"),
        _ => {
            let name = kind.map_or(String::new(), |name| name + " ");
            println!(
                "{rounds} rounds from seed {seed}; the same again: oracle/beside {name}--rounds {rounds} --seed {seed}"
            );
        }
    }
    let passed: u64 = counts.iter().map(Counts::passed).sum();
    let failed: u64 = counts.iter().map(Counts::failed).sum();
    println!("{passed} passed, {failed} failed");
    if failed == 0 && passed > 0 {
        ExitCode::SUCCESS
    } else {
        ExitCode::FAILURE
    }
}
