//! The oracle's command: what it checks on the published Rust, and the lists that it writes.

use oracle::tally::Tally;
use oracle::{branches, lists, runs, toolchain};
use std::process::ExitCode;

const USAGE: &str = "usage: oracle toolchain|runs|lists|branches|all";

fn main() -> ExitCode {
    let words: Vec<String> = std::env::args().skip(1).collect();
    let parts: &[fn(&mut Tally)] = match words.iter().map(String::as_str).collect::<Vec<_>>()[..] {
        ["toolchain"] => &[],
        ["runs"] => &[runs::run],
        ["lists"] => &[lists::run],
        ["branches"] => &[branches::run],
        ["all"] => &[runs::run, lists::run, branches::run],
        _ => {
            eprintln!("{USAGE}");
            return ExitCode::from(2);
        }
    };
    toolchain::print();
    if let Some(code) = toolchain::refused("oracle") {
        return code;
    }
    let mut tally = Tally::default();
    let seen = "an empty float sum and the sum of -0.0 are -0.0";
    tally.check("toolchain", true, seen);
    for part in parts {
        part(&mut tally);
    }
    tally.print();
    if tally.failed() {
        ExitCode::FAILURE
    } else {
        ExitCode::SUCCESS
    }
}
