//! The program beside the expectation, on fresh random streams.

use crate::counts::Counts;
use crate::decode::{Decoded, NotFinite, decode};
use crate::expect;
use crate::program::{LONGEST_PACKET, Program};
use crate::random;
use crate::stream::{Model, Settings};
use oracle::decode_cases::{random_case, some_shot};
use oracle::exact::drive;
use oracle::splitmix::{Rule, SplitMix64};
use std::fs::File;
use std::path::{Path, PathBuf};
use std::process::Output;

#[derive(Default)]
pub struct Score {
    pub passed: u64,
    pub failed: u64,
}

impl Score {
    fn note(&mut self, holds: bool) {
        if holds {
            self.passed += 1;
        } else {
            self.failed += 1;
        }
    }
}

/// Where the streams are written for the program to read; those that failed stay.
fn folder() -> PathBuf {
    Path::new(env!("CARGO_MANIFEST_DIR")).join("../target/streams")
}

pub fn run(program: &Program, count: u64, seed: u64) -> std::io::Result<Score> {
    let mut score = Score::default();
    copies(count, seed, &mut score);
    std::fs::create_dir_all(folder())?;
    let mut counts = Counts::default();
    let (mut bytes, mut longest) = (0, 0);
    let step = (count / 10).max(1);
    for number in 0..count {
        if number > 0 && number % step == 0 {
            eprintln!("streams: {number} of {count}, {} failed", score.failed);
        }
        let mut random = random_of(seed, number);
        // Every other stream has settings of both kinds.
        let stream = if number % 2 == 0 {
            random::stream(&mut random)
        } else {
            random::stream_of_both(&mut random)
        };
        let wanted = expect::run(&stream);
        counts.add(&wanted);
        bytes += stream.len();
        longest = longest.max(stream.len());
        let path = folder().join(format!("{seed}-{number}.stream"));
        std::fs::write(&path, &stream)?;
        let outputs = [
            ("a file", program.with_file(File::open(&path)?)?),
            (
                "a pipe",
                program.with_pipe(pieces(&mut random, &stream, 1 << 16))?,
            ),
            (
                "packets",
                program.with_packets(pieces(&mut random, &stream, LONGEST_PACKET))?,
            ),
        ];
        let before = score.failed;
        for (way, output) in outputs {
            let holds = is_wanted(&output, &wanted.text);
            score.note(holds);
            if !holds {
                println!(
                    "FAIL stream {number} of seed {seed} by {way}, kept as oracle/target/streams/{seed}-{number}.stream: {}, wrote {:?}, wanted {:?}, said {:?}",
                    output.status,
                    String::from_utf8_lossy(&output.stdout),
                    wanted.text,
                    String::from_utf8_lossy(&output.stderr),
                );
            }
        }
        if score.failed == before {
            std::fs::remove_file(&path)?;
        }
    }
    println!("{count} streams, {bytes} bytes, the longest {longest}");
    counts.print();
    Ok(score)
}

/// Each stream has a generator of its own, so that it can be made again alone.
fn random_of(seed: u64, number: u64) -> SplitMix64 {
    let start = SplitMix64::new(seed).draw() ^ number;
    SplitMix64::new(SplitMix64::new(start).draw())
}

fn is_wanted(output: &Output, text: &str) -> bool {
    output.status.success() && output.stdout == text.as_bytes() && output.stderr.is_empty()
}

/// The stream in pieces: single bytes where it is short, else some of every length up to the longest.
fn pieces(random: &mut SplitMix64, stream: &[u8], longest: usize) -> Vec<Vec<u8>> {
    let mut left = stream;
    let mut pieces = Vec::new();
    while !left.is_empty() {
        let most = match random.below(4) {
            _ if stream.len() <= 200 => 1,
            0 => 7,
            1 => 100,
            _ => longest,
        };
        let (piece, rest) = left.split_at(random.between(1, most).min(left.len()));
        pieces.push(piece.to_vec());
        left = rest;
    }
    pieces
}

/// The copy that the expectation decodes in, beside the files as published, on models that probabilities can have.
fn copies(count: u64, seed: u64, score: &mut Score) {
    let mut random = SplitMix64::new(seed);
    let mut same = 0;
    for round in 0..count {
        let mut case = random_case(&mut random, round as usize);
        if round % 2 == 0 {
            case.settings = case.settings.drawn(Rule::SeedXorLeg);
        } else {
            // A shot number of the case's own, so that the cases to come stay what they are.
            case.seed = some_shot(&mut SplitMix64::new(case.seed));
            case.settings = case.settings.drawn(Rule::ByShot);
        }
        let published = match drive::decode(&case) {
            Ok(outcome) => Ok(Decoded {
                converged: outcome.weight.is_some(),
                total: outcome.total,
                legs: outcome.legs.len(),
                bits: outcome.correction,
            }),
            Err(refusal) => {
                assert_eq!(refusal.code, 30, "nothing else is wrong with these cases");
                Err(NotFinite)
            }
        };
        let (model, settings) = (Model::of(&case.model), Settings::of(&case.settings));
        let holds = decode(&model, &settings, case.seed, &case.syndrome) == published;
        score.note(holds);
        same += u64::from(holds);
        if !holds {
            println!("FAIL the open copy decodes otherwise than the published files: {case:?}");
        }
    }
    println!("decodes in the open copy as in the published files: {same} of {count}");
}
