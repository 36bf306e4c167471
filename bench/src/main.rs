//! The proved code and the Rust, timed in one process on the same inputs: what `bench/run` runs. A row is the least of many turns, taken in
//! alternation, so that whatever else the machine does meets both alike, and in passes over all rows, so that it meets no row alone.

mod beliefs;
mod building;
mod clips;
mod decodes;
mod iterations;
mod models;
mod plot;
mod priors;
mod refused;
mod stack;
mod table;
mod timing;

use oracle::toolchain;
use proved::Size;
use std::path::Path;
use std::process::ExitCode;
use timing::{HEAD, HEAD_OF_CLIPS, Row};

const USAGE: &str = "usage: bench/run [building|priors|beliefs|iterations|decodes|tests|stack|bytes] | clip | --write
  without a word, all of them but clip; --write besides puts the figures into docs/BENCHMARKS.md and docs/benchmarks.svg
  clip: the proved decode with a clip beside the same without one, and no Rust";

type Part = (&'static str, fn() -> Vec<Row>);

const PARTS: [Part; 6] = [
    ("building", building::run),
    ("priors", priors::run),
    ("beliefs", beliefs::run),
    ("iterations", iterations::run),
    ("decodes", decodes::run),
    ("tests", refused::run),
];

/// By its name alone: its rows have no Rust beside them.
const CLIP: Part = ("clip", clips::run);

/// How often all rows are gone through.
const PASSES: usize = 3;

/// The load of the machine over the last minute, as the system tells it.
fn load() -> String {
    let text = std::fs::read_to_string("/proc/loadavg").unwrap_or_default();
    text.split(' ').next().unwrap_or_default().to_string()
}

/// What the figures were taken on.
fn machine(load_before: &str) -> String {
    let cores = std::thread::available_parallelism().map_or(1, usize::from);
    format!(
        "{}; {}, {cores} cores. Load average {load_before} before the run and {} at its end; the run itself is 1.",
        toolchain::rustc(),
        toolchain::processor(),
        load()
    )
}

fn write(
    rows: &[Row],
    stack: &[(&str, usize)],
    bytes: &[(Size, usize)],
    machine: &str,
) -> Result<(), String> {
    let docs = Path::new(env!("CARGO_MANIFEST_DIR")).join("../docs");
    let page = docs.join("BENCHMARKS.md");
    let failed = |error: std::io::Error| error.to_string();
    let mut text = std::fs::read_to_string(&page).map_err(failed)?;
    for (part, with) in [
        ("machine", machine.to_string()),
        ("times", table::beside(rows)),
        ("tests", table::tests(rows)),
        ("stack", table::stack(stack)),
        ("bytes", table::bytes(bytes)),
    ] {
        text = table::replaced(&text, part, &with)?;
    }
    std::fs::write(&page, text).map_err(failed)?;
    std::fs::write(docs.join("benchmarks.svg"), plot::svg(rows)).map_err(failed)
}

fn main() -> ExitCode {
    let words: Vec<String> = std::env::args().skip(1).collect();
    let word = match words.as_slice() {
        [] => None,
        [word] => Some(word.as_str()),
        _ => Some(""),
    };
    let known = |name: &str| {
        matches!(name, "clip" | "stack" | "bytes") || PARTS.iter().any(|(part, _)| *part == name)
    };
    let all = matches!(word, None | Some("--write"));
    let clips = word == Some(CLIP.0);
    if !all && !word.is_some_and(known) {
        eprintln!("{USAGE}");
        return ExitCode::from(2);
    }
    let asked = |name: &str| all || word == Some(name);
    let load_before = load();
    let mut rows: Vec<Row> = Vec::new();
    for pass in 1..=PASSES {
        let mut these = Vec::new();
        let parts: &[Part] = if clips { &[CLIP] } else { &PARTS };
        for &(name, run) in parts {
            if asked(name) {
                eprintln!("pass {pass} of {PASSES}: {name}");
                these.extend(run());
            }
        }
        rows = match pass {
            1 => these,
            _ => rows
                .into_iter()
                .zip(&these)
                .map(|(row, other)| row.or_less(other))
                .collect(),
        };
    }
    if !rows.is_empty() {
        println!("{}", if clips { HEAD_OF_CLIPS } else { HEAD });
    }
    for row in &rows {
        println!("{}", row.line());
    }
    let stack = if asked("stack") {
        stack::run()
    } else {
        Vec::new()
    };
    for (call, bytes) in &stack {
        println!("{:36} {bytes:>8} bytes", format!("stack/{call}"));
    }
    let bytes = if asked("bytes") {
        models::bytes()
    } else {
        Vec::new()
    };
    for (size, bytes) in &bytes {
        println!(
            "{:36} {bytes:>8} bytes",
            format!("graph/{} edges", size.edges)
        );
    }
    let machine = machine(&load_before);
    println!("# {machine}");
    if word == Some("--write")
        && let Err(why) = write(&rows, &stack, &bytes, &machine)
    {
        eprintln!("bench: not all was written: {why}");
        return ExitCode::FAILURE;
    }
    ExitCode::SUCCESS
}
