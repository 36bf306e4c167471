//! `beliefs` against the Rust, every posterior bit. A NaN's sign is open in the Rust and positive in the port, so what is
//! wanted is the answer of the oracle's copy that reads it as positive; where the published files answer something else on
//! this processor, the run is counted apart.

use crate::counts::Counts;
use crate::damage::{damage_lists, nudge_length};
use crate::given::{Given, model_of};
use crate::rounds::{Part, Rate};
use crate::table::{MOST_TURNS, test, wanted_lengths, wanted_lists};
use oracle::answers::Refusal;
use oracle::belief_cases::{BeliefCase, SCALES, nan_sign_decides, random_syndrome};
use oracle::bits::{bits, is_zero};
use oracle::counted;
use oracle::counted::bp::count::{NanSign, read_nan_sign};
use oracle::exact;
use oracle::model::random_model;
use oracle::splitmix::SplitMix64;
use proved::{Answer, Beliefs, Run, Size};

/// In these the Rust answers otherwise on this processor.
const DECIDED: &str = "beliefs, runs that a NaN's sign decides";

pub const PARTS: &[Part] = &[
    Part {
        rate: Rate::Each(1),
        case: small,
    },
    Part {
        rate: Rate::Every(3000),
        case: large,
    },
    Part {
        rate: Rate::First(1),
        case: made,
    },
    Part {
        rate: Rate::Every(4),
        case: damaged,
    },
];

/// An answer with the posterior's bits.
type Told = Result<Vec<u64>, (u64, u64)>;

fn told(answer: Result<Vec<f64>, Refusal>) -> Told {
    match answer {
        Ok(posterior) => Ok(bits(&posterior)),
        Err(refusal) => Err(refusal.pair()),
    }
}

/// The answer of the counted copy where it reads a NaN's sign so; it reads it as positive before and after.
fn told_by(sign: NanSign, case: &BeliefCase) -> Told {
    read_nan_sign(sign);
    let answer = told(counted::drive::beliefs(case));
    read_nan_sign(NanSign::Positive);
    answer
}

/// One run, both ways. Tells whether a NaN's sign decides it.
fn compare(
    name: &'static str,
    case: &BeliefCase,
    random: &mut SplitMix64,
    counts: &mut Counts,
) -> bool {
    let (given, built) = Given::built(&case.model, random);
    let mut lists = Beliefs::filled(given.size, random.pick(&[1.5, -0.0, f64::NAN]));
    let run = Run {
        syndrome: &case.syndrome,
        iterations: case.iterations,
        scale: case.scale,
        serial: case.serial,
    };
    let answer = given.beliefs(run, &mut lists);
    let wanted = told(counted::drive::beliefs(case));
    let published = told(exact::drive::beliefs(case));
    let decided = published != wanted;
    // Only a NaN's sign may do that: read as the processor leaves it, the copy answers as published.
    let explained = !decided || told_by(NanSign::AsItIs, case) == published;
    let same = match (answer, &wanted) {
        (Ok(()), Ok(posterior)) => bits(&lists.posterior) == *posterior,
        (Err(refusal), Err(other)) => refusal == *other && is_zero(&lists.posterior),
        _ => false,
    };
    let cleared = is_zero(&lists.ewa_posterior) && is_zero(&lists.c_to_v) && is_zero(&lists.v_to_c);
    counts.check(
        name,
        wanted.as_ref().map(|_| ()).map_err(|refusal| *refusal),
        built == Ok(()) && same && cleared && explained,
        || format!("{answer:?}, {:?} for {wanted:?}: {case:?}", lists.posterior),
    );
    decided
}

fn any_scale(random: &mut SplitMix64) -> f64 {
    match random.below(4) {
        0 => random.pick(&SCALES),
        1 => f64::from_bits(random.draw()),
        _ => 0.3 + random.unit(),
    }
}

fn small(_: u64, random: &mut SplitMix64, counts: &mut Counts) {
    let most = random.pick(&[2, 4, 6, 9, 14, 24]);
    let model = random_model(random, most, most * 3 / 2);
    let case = BeliefCase {
        syndrome: random_syndrome(random, model.checks),
        model,
        iterations: if random.once_in(200) {
            random.between(21, 600)
        } else {
            random.below(21)
        },
        scale: any_scale(random),
        serial: random.once_in(2),
    };
    let decided = compare("beliefs, small", &case, random, counts);
    counts.note(DECIDED, u64::from(decided));
}

/// Checks, mechanisms, edges, iterations.
const LARGE: [(usize, usize, usize, usize); 6] = [
    (65_536, 65_536, 1_048_576, 3),
    (1024, 65_536, 1_048_576, 7),
    (65_536, 16_384, 131_072, 12),
    (4000, 8000, 24_000, 20),
    (300, 900, 2700, 400),
    (2, 65_536, 131_072, 6),
];

fn large(case: u64, random: &mut SplitMix64, counts: &mut Counts) {
    let (checks, mechanisms, edges, iterations) = LARGE[case as usize / 2 % LARGE.len()];
    let size = Size {
        checks,
        mechanisms,
        edges,
    };
    let case = BeliefCase {
        model: model_of(size, random),
        syndrome: random_syndrome(random, checks),
        iterations,
        scale: 0.3 + random.unit(),
        serial: !case.is_multiple_of(2),
    };
    let decided = compare("beliefs, large", &case, random, counts);
    counts.note(DECIDED, u64::from(decided));
}

/// The cases made for a NaN's sign: read as negative they come out otherwise, whatever this processor leaves there.
fn made(_: u64, random: &mut SplitMix64, counts: &mut Counts) {
    let name = "beliefs, the cases made for a NaN's sign";
    for case in nan_sign_decides() {
        let decided = compare(name, &case, random, counts);
        counts.note(DECIDED, u64::from(decided));
        let (positive, negative) = (
            told_by(NanSign::Positive, &case),
            told_by(NanSign::Negative, &case),
        );
        counts.check(name, Ok(()), positive != negative, || {
            format!("{positive:?} with either sign")
        });
    }
}

/// What the reference's table says before the run: the tests of the graph, then 12, 20 and 22.
fn wanted_before(given: &Given, run: Run, lists: &Beliefs) -> Answer {
    wanted_lists(given)?;
    let size = given.size;
    test(run.iterations <= MOST_TURNS, 12)?;
    test(run.syndrome.len() == size.checks, 20)?;
    wanted_lengths(
        size,
        &[&lists.posterior, &lists.ewa_posterior],
        &[&lists.c_to_v, &lists.v_to_c],
    )
}

fn damaged(_: u64, random: &mut SplitMix64, counts: &mut Counts) {
    let most = random.pick(&[1, 2, 3, 8]);
    let model = random_model(random, most, most);
    let mut syndrome = random_syndrome(random, model.checks);
    let (mut given, built) = Given::built(&model, random);
    let mut lists = Beliefs::filled(given.size, 1.5);
    let mut iterations = random.below(4);
    for _ in 0..random.between(1, 2) {
        match random.below(6) {
            0 => nudge_length(random, &mut syndrome, 1),
            1 => iterations = random.pick(&[MOST_TURNS + 1, 1 << 32, usize::MAX]),
            2 | 3 => {
                let which = random.below(4);
                nudge_length(random, lists.each()[which], 2.5);
            }
            _ => damage_lists(random, &mut given),
        }
    }
    let run = Run {
        syndrome: &syndrome,
        iterations,
        scale: 0.5,
        serial: random.once_in(2),
    };
    let mut before = lists.clone();
    let wanted = wanted_before(&given, run, &lists);
    let answer = given.beliefs(run, &mut lists);
    let kept = lists
        .each()
        .iter()
        .zip(before.each())
        .all(|(now, before)| bits(now) == bits(before));
    // Past the tests these runs stay finite: that they are right is what the others show.
    let cleared = is_zero(&lists.ewa_posterior) && is_zero(&lists.c_to_v) && is_zero(&lists.v_to_c);
    let good = answer == wanted && if wanted == Ok(()) { cleared } else { kept };
    counts.check("beliefs, damaged", wanted, good && built == Ok(()), || {
        format!("{answer:?} for {wanted:?}: {given:?}, {run:?}, {lists:?}")
    });
}
