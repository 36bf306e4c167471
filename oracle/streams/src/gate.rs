//! The gate's streams: fixed cases for the program `replay_shots`, which writes of each what `shots` would, and one of several pieces for `replay_pieces`. Every case but the drawn
//! ones names what it is to come to, so that the expectation is held to the case and not to itself.

mod contents;
mod draws;
mod records;
mod whole;

use crate::counts::Counts;
use crate::expect::{self, Code};
use crate::random;
use crate::stream::Stream;
use oracle::tally::Tally;
use std::path::{Path, PathBuf};

/// The cases are committed, so they stay below this many bytes.
const MOST_BYTES: usize = 300_000;

pub struct Case {
    pub name: String,
    pub bytes: Vec<u8>,
    comes_to: ComesTo,
}

enum ComesTo {
    /// The run ends with `stopped` and this number.
    Stopped(Code),
    /// The run ends with `end`; of each shot the number that refuses it, 0 for none.
    Shots(Vec<Code>),
    /// A drawn stream: whatever it comes to.
    Either,
}

impl Case {
    /// Whether the expectation is what the case was made for.
    pub fn is_met_by(&self, run: &expect::Run) -> bool {
        match &self.comes_to {
            ComesTo::Stopped(code) => run.stopped == Some(*code),
            ComesTo::Shots(codes) => {
                let told: Vec<Code> = run.shots.iter().map(|shot| shot.unwrap_or(0)).collect();
                run.stopped.is_none() && told == *codes
            }
            ComesTo::Either => true,
        }
    }
}

/// The reference's 141 bytes.
pub fn document() -> Vec<u8> {
    Stream::of_g().shot(7, &[1, 0]).bytes
}

#[derive(Default)]
struct Cases(Vec<Case>);

impl Cases {
    fn add(&mut self, name: &str, stream: Stream, comes_to: ComesTo) {
        self.0.push(Case {
            name: name.to_string(),
            bytes: stream.bytes,
            comes_to,
        });
    }

    fn stops(&mut self, code: Code, name: &str, stream: Stream) {
        self.add(name, stream, ComesTo::Stopped(code));
    }

    fn runs(&mut self, codes: &[Code], name: &str, stream: Stream) {
        self.add(name, stream, ComesTo::Shots(codes.to_vec()));
    }
}

pub fn cases() -> Vec<Case> {
    let mut cases = Cases::default();
    whole::whole_runs(&mut cases);
    whole::document_runs(&mut cases);
    whole::replaced(&mut cases);
    whole::refused_shots(&mut cases);
    records::cut(&mut cases);
    records::kinds(&mut cases);
    records::lengths(&mut cases);
    records::early(&mut cases);
    records::room(&mut cases);
    contents::models(&mut cases);
    contents::settings(&mut cases);
    contents::which_wins(&mut cases);
    records::long_records(&mut cases);
    whole::full_room(&mut cases);
    records::every_cut(&mut cases);
    let (kind_2, both) = (random::stream, random::stream_of_both);
    whole::drawn(&mut cases, "drawn", 160, 0x0064_7261_776e, kind_2);
    draws::whole_runs(&mut cases);
    draws::refused_shots(&mut cases);
    draws::faults(&mut cases);
    let name = "drawn, of both kinds";
    whole::drawn(&mut cases, name, 40, 0x6472_6177_6e02, both);
    cases.0
}

fn path(program: &str, part: &str) -> PathBuf {
    let crates = Path::new(env!("CARGO_MANIFEST_DIR")).join("../../crates");
    crates.join(program).join(part)
}

/// Writes one file; it fails where a file that stood there was another one.
fn write(tally: &mut Tally, program: &str, part: &str, bytes: &[u8]) {
    let name = format!("crates/{program}/{part}");
    tally.write_committed(&name, &path(program, part), bytes, "");
}

/// Writes the standard inputs of `shots`, `replay_pieces` and `replay_shots` and what they must write. With `list` every case has a line.
pub fn run(tally: &mut Tally, list: bool) {
    let document = document();
    let text = expect::run(&document).text;
    let wanted = "shot 0 1 2 1 100\nend 1\n";
    tally.check(
        "the reference's stream",
        document.len() == 141 && text == wanted,
        &format!("{} bytes, {text:?}", document.len()),
    );
    write(tally, "shots", "stdin", &document);
    write(tally, "shots", "stdout", text.as_bytes());

    let lines = draws::of_either_kind().map(|stream| expect::run(&stream.bytes).text);
    let others = lines[0].lines().zip(lines[1].lines());
    let others = others.filter(|(one, other)| one != other).count();
    tally.check(
        "the same shots behind either kind of settings",
        others > 0,
        &format!("{others} lines differ"),
    );

    let (stream, codes) = whole::pieces();
    let case = Case {
        name: "pieces".to_string(),
        bytes: stream.bytes,
        comes_to: ComesTo::Shots(codes),
    };
    let pieces = expect::run(&case.bytes);
    tally.check(
        "the stream of several pieces",
        case.bytes.len() > 4 * 4096 && case.is_met_by(&pieces),
        &format!("{} bytes", case.bytes.len()),
    );
    write(tally, "replay_pieces", "stdin", &case.bytes);
    write(tally, "replay_pieces", "stdout", pieces.text.as_bytes());

    let (mut input, mut output) = (Vec::new(), String::new());
    let mut counts = Counts::default();
    let cases = cases();
    let mut met = 0;
    for (number, case) in cases.iter().enumerate() {
        let run = expect::run(&case.bytes);
        let is_met = case.is_met_by(&run);
        met += usize::from(is_met);
        if list || !is_met {
            let (at, last) = (output.len(), run.text.lines().last().unwrap_or_default());
            let word = if is_met { "case" } else { "NOT MET" };
            println!(
                "{word} {number}, written from byte {at}: {}: {last}",
                case.name
            );
        }
        input.extend((case.bytes.len() as u32).to_le_bytes());
        input.extend(&case.bytes);
        output += &run.text;
        counts.add(&run);
    }
    tally.check(
        "cases that come to what they were made for",
        met == cases.len(),
        &format!("{met} of {}", cases.len()),
    );
    counts.print();
    // 1, 2, 3 and 13 can't come of a stream.
    let missing: Vec<Code> = (4..=6)
        .chain([10, 11, 12, 14, 15, 16, 20, 21, 27, 30])
        .chain(40..=45)
        .filter(|code| !counts.has(*code))
        .collect();
    let seen = format!("without a case: {missing:?}");
    tally.check("every number has a case", missing.is_empty(), &seen);
    let size = input.len();
    tally.check(
        "size",
        size < MOST_BYTES,
        &format!("{size} bytes, limit {MOST_BYTES}"),
    );
    write(tally, "replay_shots", "stdin", &input);
    write(tally, "replay_shots", "stdout", output.as_bytes());
}
