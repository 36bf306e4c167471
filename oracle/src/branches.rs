//! Shows which branches of the published files the listed cases take: replays them through the counted copy, checks that it answers
//! as the lists say, prints a count for each branch, and fails on one that nothing takes and no reason explains.

use crate::counted::bp::count::{self, Site};
use crate::counted::bp::{BpScratch, RelayBp, RelayConfig, SITES, min_sum_bp_into};
use crate::counted::drive;
use crate::decode_cases::{self, Settings};
use crate::graph_cases;
use crate::lists::{beliefs, path};
use crate::model::Model;
use crate::tally::Tally;
use pecos_decoder_core::dem::SparseDem;
use pecos_decoder_core::errors::DecoderError;

/// Branches that no input reaches here: file, line, what, and why.
const UNREACHED: [(&str, usize, &str, &str); 33] = [
    ("min_sum.rs", 67, "?: Err", MECHANISMS),
    ("min_sum.rs", 92, "closure", USIZE),
    ("min_sum.rs", 96, "?: Err", USIZE),
    ("min_sum.rs", 98, "closure", USIZE),
    ("min_sum.rs", 102, "?: Err", USIZE),
    ("min_sum.rs", 104, "?: Err", ENTRIES),
    ("min_sum.rs", 206, "?: Err", TESTED),
    ("min_sum.rs", 207, "?: Err", TESTED),
    ("min_sum.rs", 215, "?: Err", TESTED),
    ("min_sum.rs", 218, "?: Err", TESTED),
    ("min_sum.rs", 230, "?: Err", TESTED),
    ("min_sum.rs", 273, "expect: Err", ENTRIES),
    ("min_sum.rs", 283, "closure", USIZE),
    ("min_sum.rs", 285, "?: Err", USIZE),
    ("min_sum.rs", 289, "?: Err", TESTED),
    ("min_sum.rs", 290, "closure", USIZE),
    ("min_sum.rs", 292, "?: Err", USIZE),
    ("min_sum.rs", 294, "?: Err", TESTED),
    ("min_sum.rs", 326, "operand 1: false", SAME_LENGTH),
    ("min_sum.rs", 398, "for: no round", ONE_OR_TWO),
    ("min_sum.rs", 420, "for: no round", TWO_ENTRIES),
    ("min_sum.rs", 435, "for: no round", TWO_ENTRIES),
    ("min_sum.rs", 448, "for: no round", TWO_ENTRIES),
    ("min_sum.rs", 455, "for: no round", OF_A_CHECK),
    ("relay.rs", 200, "for: no round", LEG_ZERO),
    ("relay.rs", 280, "if: not taken", DRAW),
    ("relay.rs", 288, "for: a round", DRAW),
    ("relay.rs", 288, "for: no round", DRAW),
    ("relay.rs", 303, "for: no round", SOME_ITERATION),
    ("relay.rs", 519, "fn leg_seed", DRAW),
    ("relay.rs", 520, "expect: Ok", DRAW),
    ("relay.rs", 520, "expect: Err", DRAW),
    ("relay.rs", 557, "for: no round", OF_A_CHECK),
];

const MECHANISMS: &str = "needs 2^32 mechanisms in memory";
const ENTRIES: &str = "needs 2^32 entries in memory";
const USIZE: &str = "no list in memory is long enough to overflow usize";
const TESTED: &str = "the counts were tested before, and bound this number";
const SAME_LENGTH: &str = "both message lists are made with one length and are private";
const ONE_OR_TWO: &str = "there are one or two outer rounds";
const TWO_ENTRIES: &str = "checks with fewer than two entries were skipped";
const OF_A_CHECK: &str = "the mechanism was found in a check, so it has an entry";
const LEG_ZERO: &str = "leg zero always comes up";
const SOME_ITERATION: &str = "settings with 0 iterations for a leg that runs are refused";
const DRAW: &str = "the published draw is out of scope; oracle runs pass explicit sets";

pub fn run(tally: &mut Tally) {
    let graphs = graph_cases::cases();
    let beliefs = beliefs().kept;
    let decodes = decode_cases::cases();
    count::reset();
    let text = std::fs::read_to_string(path()).unwrap_or_default();
    let listed = &mut text.lines().skip(1);
    replay(
        tally,
        "graphs",
        listed,
        graphs.iter().map(drive::graph_line),
    );
    replay(
        tally,
        "beliefs",
        listed,
        beliefs.iter().map(drive::belief_line),
    );
    replay(
        tally,
        "decodes",
        listed,
        decodes.iter().map(drive::decode_line),
    );
    // Behind them are those with a clip, which these files have not.
    let (more, clipped) = (listed.count(), decode_cases::clipped().len());
    tally.check(
        "lines behind the lists",
        more == clipped,
        &format!("{more}, and {clipped} cases have a clip"),
    );
    let by_lists = count::counts();
    count::reset();
    extra_refusals(tally);
    report(tally, &by_lists, &count::counts());
}

/// The next lines that are listed must be what the counted copy answers.
fn replay<'a>(
    tally: &mut Tally,
    name: &str,
    listed: &mut impl Iterator<Item = &'a str>,
    lines: impl Iterator<Item = String>,
) {
    let (mut equal, mut all) = (0, 0);
    for line in lines {
        all += 1;
        equal += usize::from(listed.next() == Some(line.as_str()));
    }
    tally.check(
        &format!("{name} on the counted copy"),
        all > 0 && equal == all,
        &format!("{equal} of {all} lines equal"),
    );
}

/// Refusals of the Rust that the lists can't hold: probabilities that are no log ratio of ours,
/// lists of wrong length, and sizes above the reference's limits.
fn extra_refusals(tally: &mut Tally) {
    let mut refused = Vec::new();
    for probability in [f64::NAN, f64::INFINITY, -0.1, 1.5] {
        let model = Model {
            probabilities: vec![0.1, probability, 0.1],
            ..Model::g()
        };
        refused.push((4, drive::sparse_graph(&model).err()));
    }
    let too_many_checks = SparseDem {
        mechanisms: Vec::new(),
        num_detectors: 1 << 32,
    };
    let graph = crate::counted::bp::BpGraph::from_sparse_dem(&too_many_checks);
    refused.push((1, graph.err()));

    let graph = || drive::sparse_graph(&Model::g()).expect("G builds");
    let mut scratch = BpScratch::new(&graph());
    for (syndrome, mechanisms) in [(1, 3), (2, 2)] {
        let (syndrome, mut posterior) = (vec![0; syndrome], vec![0.0; mechanisms]);
        let answer = min_sum_bp_into(
            &graph(),
            &syndrome,
            1,
            1.0,
            false,
            &mut scratch,
            &mut posterior,
        );
        refused.push((20, answer.err()));
    }
    // Work lists of a graph with another number of checks, of mechanisms, of edges.
    for (checks, detectors) in [
        (3, vec![vec![0], vec![0, 1], vec![1]]),
        (2, vec![vec![0], vec![0, 1], vec![1], vec![]]),
        (2, vec![vec![0], vec![0, 1], vec![]]),
    ] {
        let other = drive::sparse_graph(&Model {
            checks,
            probabilities: vec![0.1; detectors.len()],
            detectors,
        });
        let mut scratch = BpScratch::new(&other.expect("it builds"));
        let answer = min_sum_bp_into(
            &graph(),
            &[0, 0],
            1,
            1.0,
            false,
            &mut scratch,
            &mut [0.0; 3],
        );
        refused.push((22, answer.err()));
    }

    let config = |settings: &Settings, sets| RelayBp::new(graph(), drive::config(settings, sets));
    let mut settings = Settings::plain(false, 1);
    settings.num_legs = usize::MAX;
    refused.push((13, config(&settings, None).err()));
    let mut settings = Settings::plain(false, 1);
    (settings.num_legs, settings.leg_iterations) = (1, 1);
    refused.push((18, config(&settings, Some(vec![vec![0.0; 2]])).err()));

    let holds = |(code, error): &(usize, Option<DecoderError>)| {
        let seen = error
            .as_ref()
            .map(|error| crate::answers::refusal(error, 3).code);
        seen == Some(*code)
    };
    let equal = refused.iter().filter(|pair| holds(pair)).count();
    tally.check(
        "refusals beyond the lists",
        equal == refused.len(),
        &format!("{equal} of {} as expected", refused.len()),
    );
    // The default settings refuse nothing, but are a function of the file.
    assert!(RelayBp::new(graph(), RelayConfig::default()).is_ok());
}

fn report(tally: &mut Tally, by_lists: &[u64], by_extras: &[u64]) {
    let mut order: Vec<usize> = (0..SITES.len()).collect();
    order.sort_by_key(|&site| (SITES[site].file, SITES[site].line, site));
    let (mut by_list, mut by_extra, mut named, mut wrong) = (0, 0, 0, 0);
    for &site in &order {
        let Site { file, line, what } = &SITES[site];
        let (lists, extras) = (by_lists[site], by_extras[site]);
        let reason = UNREACHED
            .iter()
            .find(|entry| (entry.0, entry.1, entry.2) == (*file, *line, *what));
        let remark = match (reason, lists, extras) {
            (Some((.., why)), 0, 0) => {
                named += 1;
                format!("not reached: {why}")
            }
            (Some(_), ..) => {
                wrong += 1;
                "WRONG: named as not reached".into()
            }
            (None, 0, 0) => {
                wrong += 1;
                "WRONG: not reached".into()
            }
            (None, 0, _) => {
                by_extra += 1;
                "beyond the lists only".into()
            }
            _ => {
                by_list += 1;
                String::new()
            }
        };
        let counts = format!("{file}:{line} {what} {lists} {extras} {remark}");
        println!("branch {}", counts.trim_end());
    }
    let known = |entry: &&(&str, usize, &str, &str)| {
        let is = |site: &Site| (site.file, site.line, site.what) == (entry.0, entry.1, entry.2);
        SITES.iter().any(is)
    };
    let strangers = UNREACHED.iter().filter(|entry| !known(entry)).count();
    tally.check(
        "branches",
        wrong == 0 && strangers == 0,
        &format!(
            "{} counted: {by_list} taken by the lists, {by_extra} by the refusals beyond them only, \
             {named} named as not reached, {wrong} wrong, {strangers} named that don't exist",
            order.len()
        ),
    );
}
