//! Writes the three lists of cases with the Rust's answers, one behind the other in one file.

use crate::answers::{Decoded, Refusal};
use crate::belief_cases::{self, BeliefCase, nan_sign_decides};
use crate::bits::bits;
use crate::counted;
use crate::counted::bp::count::{NanSign, read_nan_sign};
use crate::decode_cases::{self, DecodeCase};
use crate::exact::drive;
use crate::graph_cases::{self, GraphCase};
use crate::splitmix::Rule;
use crate::stores;
use crate::tally::Tally;
use std::collections::BTreeMap;
use std::path::PathBuf;

/// The room of the program that replays the lists (`replay_cases::text_room`).
const MOST_BYTES: usize = 1_048_576;

/// Where the lists stand: they are the standard input of the program that replays them.
pub fn path() -> PathBuf {
    let oracle = PathBuf::from(env!("CARGO_MANIFEST_DIR"));
    oracle.join("../crates/replay/stdin")
}

/// The listed belief cases, and what was left out of them.
pub struct Beliefs {
    pub kept: Vec<BeliefCase>,
    pub left_out: Vec<LeftOut>,
}

/// A case in which a NaN's sign decides: what is answered with each way to read it.
pub struct LeftOut {
    here: Result<Vec<f64>, Refusal>,
    positive: Result<Vec<f64>, Refusal>,
    negative: Result<Vec<f64>, Refusal>,
}

/// The reference has a NaN's sign positive in the port and leaves it open in the Rust. So a case is
/// listed only if the answer is the same with every NaN's sign read as this processor leaves it,
/// as positive, and as negative.
pub fn beliefs() -> Beliefs {
    let mut result = Beliefs {
        kept: Vec::new(),
        left_out: Vec::new(),
    };
    for case in belief_cases::candidates() {
        let read_as = |choice| {
            read_nan_sign(choice);
            counted::drive::beliefs(&case)
        };
        let answers = LeftOut {
            here: drive::beliefs(&case),
            positive: read_as(NanSign::Positive),
            negative: read_as(NanSign::Negative),
        };
        if same(&answers.here, &answers.positive) && same(&answers.here, &answers.negative) {
            result.kept.push(case);
        } else {
            result.left_out.push(answers);
        }
    }
    read_nan_sign(NanSign::AsItIs);
    result
}

/// The same refusal, or the same beliefs bit for bit.
fn same(one: &Result<Vec<f64>, Refusal>, other: &Result<Vec<f64>, Refusal>) -> bool {
    match (one, other) {
        (Ok(one), Ok(other)) => bits(one) == bits(other),
        (Err(one), Err(other)) => one == other,
        _ => false,
    }
}

pub fn run(tally: &mut Tally) {
    let graphs = graph_cases::cases();
    sparse_and_dense_agree(tally, &graphs);
    let beliefs = beliefs();
    for LeftOut {
        here,
        positive,
        negative,
    } in &beliefs.left_out
    {
        println!(
            "note beliefs: left out because a NaN's sign decides: {here:?} on this processor, {positive:?} with a positive one, {negative:?} with a negative one"
        );
    }
    // Some candidates are made so that they must be left out: the rule is not an empty one.
    tally.check(
        "beliefs: a NaN's sign can decide",
        beliefs.left_out.len() >= nan_sign_decides().len(),
        &format!("{} left out", beliefs.left_out.len()),
    );
    made_for_a_nan_sign(tally);
    let decodes = decode_cases::cases();
    order_of_tests(tally);
    counted_messages(tally, &decodes);
    features(tally, &beliefs.kept, &decodes);
    let clipped = decode_cases::clipped();
    clips(tally, &clipped);
    heavy_models(tally);
    let lines = [
        list("graphs", graphs.iter().map(drive::graph_line)),
        list("beliefs", beliefs.kept.iter().map(drive::belief_line)),
        list("decodes", decodes.iter().map(drive::decode_line)),
        list(
            "decodes with a clip",
            clipped.iter().map(stores::decode_line),
        ),
    ]
    .concat();
    let size = write(tally, &lines);
    tally.check(
        "size of the lists",
        size <= MOST_BYTES,
        &format!("{size} bytes, limit {MOST_BYTES}"),
    );
    codes("graphs", graphs.iter().map(|case| drive::graph(case).err()));
    codes(
        "beliefs",
        beliefs.kept.iter().map(|case| drive::beliefs(case).err()),
    );
    codes(
        "decodes",
        decodes.iter().map(|case| drive::decode(case).err()),
    );
    codes(
        "decodes with a clip",
        clipped.iter().map(|case| stores::decode(case).err()),
    );
}

/// With a NaN's sign read as positive, whatever the processor: the place that is refused, the bits of the mechanism on every check,
/// and that the third case is accepted.
fn made_for_a_nan_sign(tally: &mut Tally) {
    read_nan_sign(NanSign::Positive);
    let [place, bits, acceptance] = nan_sign_decides().map(|case| counted::drive::beliefs(&case));
    read_nan_sign(NanSign::AsItIs);
    let refused = place.err().map(Refusal::pair) == Some((30, 0));
    let belief = bits.ok().map(|posterior| posterior[4].to_bits());
    tally.check(
        "beliefs: a positive NaN's sign",
        refused && belief == Some(0xffd3_e2fc_eb70_6c4e) && acceptance.is_ok(),
        &format!(
            "30 at mechanism 0: {refused}; belief 4: {belief:x?}; accepted: {}",
            acceptance.is_ok()
        ),
    );
}

/// A dense case has the incidences of the sparse case before it, and must get the same lists.
fn sparse_and_dense_agree(tally: &mut Tally, graphs: &[GraphCase]) {
    let pairs: Vec<_> = graphs
        .windows(2)
        .filter(|pair| pair[1].is_dense())
        .collect();
    let agree = pairs
        .iter()
        .filter(|pair| drive::graph(&pair[0]) == drive::graph(&pair[1]))
        .count();
    tally.check(
        "graphs: sparse and dense agree",
        agree == pairs.len() && !pairs.is_empty(),
        &format!("{agree} of {} pairs", pairs.len()),
    );
}

/// Where two things are wrong, the lower number of the reference must be the Rust's answer; 27, which is ours, comes behind 21.
fn order_of_tests(tally: &mut Tally) {
    let mut spoiled = decode_cases::spoiled();
    spoiled.extend(decode_cases::beside_27());
    let first = |(code, case): &&(usize, DecodeCase)| {
        drive::decode(case).err().map(|refusal| refusal.code) == Some(*code)
    };
    let equal = spoiled.iter().filter(first).count();
    tally.check(
        "decodes: tests in rising number",
        equal == spoiled.len(),
        &format!("{equal} of {} spoiled cases", spoiled.len()),
    );
}

/// The copy that counts messages must answer as the published files do, and count what the formula says.
fn counted_messages(tally: &mut Tally, decodes: &[DecodeCase]) {
    let counted: Vec<_> = decodes.iter().map(stores::decode).collect();
    let pairs = decodes.iter().zip(&counted);
    let alike = pairs.filter(|(case, counted)| alike(&drive::decode(case), counted));
    let alike = alike.count();
    tally.check(
        "decodes on the copy that counts messages",
        alike == decodes.len(),
        &format!("{alike} of {} equal", decodes.len()),
    );
    let name = "decodes: messages written, by the formula";
    by_formula(tally, name, decodes, &counted);
}

type Answer = Result<Decoded, Refusal>;

/// The same refusal, or the same outcome bit for bit.
fn alike(one: &Answer, other: &Answer) -> bool {
    match (one, other) {
        (Ok(one), Ok(other)) => one.is_same(other),
        (Err(one), Err(other)) => one == other,
        _ => false,
    }
}

/// What was counted must be what the formula says.
fn by_formula(tally: &mut Tally, name: &str, decodes: &[DecodeCase], counted: &[Answer]) {
    let answered = decodes.iter().zip(counted);
    let answered: Vec<_> = answered
        .filter_map(|(case, counted)| Some((case, counted.as_ref().ok()?)))
        .collect();
    let formula = |(case, outcome): &&(&DecodeCase, &Decoded)| {
        let each = stores::by_formula(case.settings.serial, &case.model.detectors);
        outcome.stores.map(u128::from) == Some(outcome.total as u128 * each)
    };
    let equal = answered.iter().filter(formula).count();
    tally.check(
        name,
        equal == answered.len() && equal > 0,
        &format!("{equal} of {} answered ones", answered.len()),
    );
}

/// Of the cases with a clip, which the copy answers: without it the copy must answer as the published files do, and the clip must do
/// something, and nothing, each on both schedules.
fn clips(tally: &mut Tally, clipped: &[DecodeCase]) {
    let on: Vec<_> = clipped.iter().map(stores::decode).collect();
    let without = |case: &DecodeCase| {
        let mut case = case.clone();
        case.settings.clip = None;
        (drive::decode(&case), stores::decode(&case))
    };
    let off: Vec<_> = clipped.iter().map(without).collect();
    let equal = off.iter().filter(|(rust, copy)| alike(rust, copy)).count();
    tally.check(
        "decodes with a clip, taken off",
        equal == clipped.len() && equal > 0,
        &format!("{equal} of {} as the published files answer", clipped.len()),
    );
    let name = "decodes with a clip: messages written, by the formula";
    by_formula(tally, name, clipped, &on);
    let code = |answer: &Answer| answer.as_ref().err().map(|refusal| refusal.code);
    for serial in [false, true] {
        let count = |holds: &dyn Fn(&Answer, &Answer) -> bool| {
            let cases = clipped.iter().zip(on.iter().zip(&off));
            cases
                .filter(|(case, (on, (off, _)))| case.settings.serial == serial && holds(on, off))
                .count()
        };
        let counts = [
            count(&|on, off| on.is_ok() && alike(on, off)),
            count(&|on, off| on.is_ok() && off.is_ok() && !alike(on, off)),
            count(&|on, off| on.is_ok() && code(off) == Some(30)),
            count(&|on, _| code(on) == Some(30)),
        ];
        let name = if serial { "CheckSerial" } else { "Flooding" };
        tally.check(
            &format!("decodes with a clip, {name}: as off, another outcome, one for 30, and 30"),
            counts.iter().all(|count| *count > 0),
            &format!("{counts:?} cases"),
        );
    }
    let nine = on.iter().filter(|on| code(on) == Some(9)).count();
    let bad = clipped
        .iter()
        .filter(|case| !stores::is_clip(case.settings.clip));
    tally.check(
        "decodes with a clip: 9",
        nine == bad.count() && nine > 0,
        &format!("{nine} cases"),
    );
}

/// Models with busy mechanisms, which the published point refuses with 30, and with a clip of 30 decodes.
fn heavy_models(tally: &mut Tally) {
    for serial in [false, true] {
        let mut case = decode_cases::heavy(serial);
        let off = drive::decode(&case).err();
        case.settings.clip = Some(30.0);
        let on = stores::decode(&case).ok();
        let weight = on.as_ref().and_then(|on| on.weight);
        let happened: Vec<u8> = vec![1, 0, u8::from(serial)];
        tally.check(
            &format!("a heavy model, serial {serial}: 30, and with a clip what happened"),
            off.map(|refusal| refusal.code) == Some(30)
                && on.as_ref().is_some_and(|on| on.correction == happened)
                && weight.is_some(),
            &format!(
                "{off:?}; weight {weight:?}, {:?} iterations, {:?} legs, posterior {:?}",
                on.as_ref().map(|on| on.total),
                on.as_ref().map(|on| on.legs.len()),
                on.as_ref().map(|on| &on.posterior)
            ),
        );
    }
}

/// The lines of one list.
fn list(name: &str, lines: impl Iterator<Item = String>) -> Vec<String> {
    let lines: Vec<String> = lines.collect();
    let bytes: usize = lines.iter().map(|line| line.len() + 1).sum();
    println!("note {name}: {} cases, {bytes} bytes", lines.len());
    lines
}

/// Write the lists; it fails where those that stood there were other ones.
fn write(tally: &mut Tally, lines: &[String]) -> usize {
    let text = format!("{:x}\n{}\n", lines.len(), lines.join("\n"));
    let seen = format!("{} cases, ", lines.len());
    tally.write_committed("lists", &path(), text.as_bytes(), &seen);
    text.len()
}

fn codes(name: &str, refusals: impl Iterator<Item = Option<Refusal>>) {
    let mut counts = BTreeMap::new();
    for refusal in refusals {
        *counts
            .entry(refusal.map_or(0, |refusal| refusal.code))
            .or_insert(0) += 1;
    }
    let words: Vec<String> = counts
        .iter()
        .map(|(code, count)| format!("{code}: {count}"))
        .collect();
    println!(
        "note {name}: cases by number of refusal (0: none): {}",
        words.join(", ")
    );
}

/// The lists must hold what the domain names; a line for each, with how many cases have it.
fn features(tally: &mut Tally, beliefs: &[BeliefCase], decodes: &[DecodeCase]) {
    let mut need = |name: &str, counts: Vec<usize>| {
        let enough = counts.iter().all(|count| *count > 0);
        tally.check(name, enough, &format!("{counts:?} cases"));
    };
    for serial in [false, true] {
        let runs = |n| {
            beliefs
                .iter()
                .filter(move |c| c.serial == serial && c.iterations == n)
        };
        let counts = (0..=20).map(|n| runs(n).count()).collect();
        need(
            &format!("beliefs: 0 to 20 iterations, serial {serial}"),
            counts,
        );
    }
    let decoded: Vec<_> = decodes
        .iter()
        .filter_map(|case| Some((case, drive::decode(case).ok()?)))
        .collect();
    let count = |holds: &dyn Fn(&DecodeCase, &Decoded) -> bool| {
        decoded
            .iter()
            .filter(|(case, seen)| holds(case, seen))
            .count()
    };
    let found = |seen: &Decoded| seen.legs.iter().filter(|leg| leg.found.is_some()).count();
    for serial in [false, true] {
        let name = if serial { "CheckSerial" } else { "Flooding" };
        let count = |holds: &dyn Fn(&DecodeCase, &Decoded) -> bool| {
            count(&|case, seen| case.settings.serial == serial && holds(case, seen))
        };
        need(
            &format!("decodes, {name}: converged, and not"),
            vec![
                count(&|_, seen| seen.weight.is_some()),
                count(&|_, seen| seen.weight.is_none()),
            ],
        );
        need(
            &format!("decodes, {name}: 0 to 16 relayed legs"),
            (0..=16)
                .map(|n| count(&|case, _| case.settings.num_legs == n))
                .collect(),
        );
        need(
            &format!("decodes, {name}: 1 to 17 legs executed"),
            (1..=17)
                .map(|n| count(&|_, seen| seen.legs.len() == n))
                .collect(),
        );
        need(
            &format!("decodes, {name}: 0 to 3 legs converged"),
            (0..=3)
                .map(|n| count(&|_, seen| found(seen) == n))
                .collect(),
        );
        need(
            &format!("decodes, {name}: stop 1 to 3"),
            (1..=3)
                .map(|n| count(&|case, _| case.settings.stop == n))
                .collect(),
        );
        need(
            &format!(
                "decodes, {name}: drawn by shot, drawn from the seed xor the leg, explicit, with relayed legs"
            ),
            [Some(Rule::ByShot), Some(Rule::SeedXorLeg), None]
                .map(|rule| {
                    let has = |case: &DecodeCase| case.settings.rule() == rule;
                    count(&|case, _| case.settings.num_legs > 0 && has(case))
                })
                .to_vec(),
        );
        need(
            &format!(
                "decodes, {name}: an empty check, a check of degree one, a mechanism without detector"
            ),
            vec![
                count(&|case, _| case.model.check_degrees().contains(&0)),
                count(&|case, _| case.model.check_degrees().contains(&1)),
                count(&|case, _| case.model.detectors.contains(&vec![])),
            ],
        );
        let with = |holds: fn(f64) -> bool| {
            count(&|case, _| case.model.probabilities.iter().any(|p| holds(*p)))
        };
        need(
            &format!("decodes, {name}: probability 0, 1, 1/2, below 1e-13, above 1/2"),
            vec![
                with(|p| p == 0.0),
                with(|p| p == 1.0),
                with(|p| p == 0.5),
                with(|p| p > 0.0 && p < 1e-13),
                with(|p| p > 0.5 && p < 1.0),
            ],
        );
    }
}
