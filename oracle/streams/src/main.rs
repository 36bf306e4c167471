//! What `shots` must write for a stream, worked out apart from it; the program beside that on random streams; and the gate's streams.

use oracle::tally::Tally;
use oracle::toolchain;
use std::io::Read;
use std::process::ExitCode;
use streams::program::Program;
use streams::{compare, expect, gate};

const USAGE: &str = "\
usage: oracle/shots expect FILE                            what shots must write for a stream; - is standard input
       oracle/shots compare [COUNT [SEED]] [--program PATH] the program beside that; without PATH the one of this repository
       oracle/shots gate [--list]                          writes the gate's inputs and outputs; --list names the cases";

fn main() -> ExitCode {
    if let Some(code) = toolchain::refused("streams") {
        return code;
    }
    let words: Vec<String> = std::env::args().skip(1).collect();
    let words: Vec<&str> = words.iter().map(String::as_str).collect();
    let done = match words[..] {
        ["expect", path] => print_expected(path),
        ["compare", ref words @ ..] => match compare_words(words) {
            Some((count, seed, path)) => compare(count, seed, path),
            None => Err(USAGE.to_string()),
        },
        ["gate"] => Ok(write_gate(false)),
        ["gate", "--list"] => Ok(write_gate(true)),
        _ => Err(USAGE.to_string()),
    };
    match done {
        Ok(true) => ExitCode::SUCCESS,
        Ok(false) => ExitCode::FAILURE,
        Err(why) => {
            eprintln!("{why}");
            ExitCode::from(2)
        }
    }
}

fn print_expected(path: &str) -> Result<bool, String> {
    let mut bytes = Vec::new();
    let read = match path {
        "-" => std::io::stdin().read_to_end(&mut bytes).map(|_| ()),
        _ => std::fs::read(path).map(|read| bytes = read),
    };
    read.map_err(|error| format!("{path}: {error}"))?;
    print!("{}", expect::run(&bytes).text);
    Ok(true)
}

fn compare_words<'a>(words: &[&'a str]) -> Option<(u64, u64, Option<&'a str>)> {
    let (numbers, path) = match words {
        [numbers @ .., "--program", path] => (numbers, Some(*path)),
        numbers => (numbers, None),
    };
    let number = |at: usize, usual: u64| match numbers.get(at) {
        Some(word) => word.parse().ok(),
        None => Some(usual),
    };
    (numbers.len() <= 2).then_some((number(0, 10_000)?, number(1, 1)?, path))
}

fn compare(count: u64, seed: u64, path: Option<&str>) -> Result<bool, String> {
    let program = Program::find(path)?;
    println!("streams: {count} from seed {seed}, each through a file, a pipe and packets");
    let score = compare::run(&program, count, seed).map_err(|error| error.to_string())?;
    println!("{} passed, {} failed", score.passed, score.failed);
    Ok(score.failed == 0 && score.passed > 0)
}

fn write_gate(list: bool) -> bool {
    let mut tally = Tally::default();
    gate::run(&mut tally, list);
    tally.print();
    !tally.failed()
}
