//! The single iteration against the published updates, run in the same order from the same state, every bit of what it leaves; and with a
//! clip against the copy that has one.

use crate::clips;
use crate::counts::Counts;
use crate::damage::{damage_lists, nudge_length};
use crate::given::{Given, model_of};
use crate::rounds::{Part, Rate};
use crate::table::{
    MOST_COUNT, test, wanted_alpha, wanted_clip, wanted_lengths, wanted_lists, wanted_names,
    wanted_syndrome,
};
use oracle::bits::{bits, is_zero};
use oracle::decode_cases::BAD_CLIPS;
use oracle::model::{Model, random_model};
use oracle::splitmix::SplitMix64;
use pecos_bp_open::{State, counting};
use proved::{Answer, Clip, Iteration, Size, Step};

const ALPHAS: [f64; 6] = [1.0, 0.5, 0.9, 1e-300, 1e200, 1e308];

pub const PARTS: &[Part] = &[
    Part {
        rate: Rate::Each(4),
        case: small,
    },
    Part {
        rate: Rate::Every(4000),
        case: large,
    },
    Part {
        rate: Rate::Each(1),
        case: damaged,
    },
    Part {
        rate: Rate::Each(4),
        case: small_clipped,
    },
    Part {
        rate: Rate::Every(4000),
        case: large_clipped,
    },
    Part {
        rate: Rate::Each(1),
        case: damaged_clipped,
    },
    Part {
        rate: Rate::First(ORDERS_OF_TESTS),
        case: order_of_tests,
    },
];

/// The numbers below `count`, now and then in their own order.
pub fn random_order(random: &mut SplitMix64, count: usize) -> Vec<u32> {
    let mut order: Vec<u32> = (0..count as u32).collect();
    if !random.once_in(5) {
        random.shuffle(&mut order);
    }
    order
}

/// How far the numbers of a state go. Among the many of a large model one of every kind stands, so that nearly all would overflow.
#[derive(Clone, Copy, PartialEq, Eq)]
enum Reach {
    Usual,
    Any,
}

fn value(random: &mut SplitMix64, reach: Reach) -> f64 {
    match random.below(16) {
        0 => 0.0,
        1 => -0.0,
        2 if reach == Reach::Any => random.pick(&[30.0, -30.0, 1e300, -1e300, 5e-324]),
        3 => random.pick(&[2.0, -2.0]),
        _ => random.unit() * 8.0 - 4.0,
    }
}

fn values(random: &mut SplitMix64, reach: Reach, count: usize) -> Vec<f64> {
    (0..count).map(|_| value(random, reach)).collect()
}

/// What a case is of, beside its graph.
struct Case {
    serial: bool,
    alpha: f64,
    clip: Clip,
    gamma: Vec<f64>,
    syndrome: Vec<u8>,
    order: Vec<u32>,
    step: Step,
}

impl Case {
    fn of(model: &Model, size: Size, reach: Reach, random: &mut SplitMix64) -> Self {
        Self {
            serial: random.once_in(2),
            alpha: match reach {
                Reach::Usual => 0.5 + random.unit(),
                Reach::Any => random.pick(&ALPHAS),
            },
            clip: Clip::OFF,
            gamma: values(random, reach, size.mechanisms),
            syndrome: random.bits(size.checks),
            order: random_order(random, model.checks),
            step: Step {
                c_to_v: values(random, reach, size.edges),
                v_to_c: values(random, reach, size.edges),
                posterior: values(random, reach, size.mechanisms),
                bias: vec![1.5; size.mechanisms],
            },
        }
    }

    fn iteration(&self) -> Iteration<'_> {
        Iteration {
            serial: self.serial,
            alpha: self.alpha,
            clip: self.clip,
            gamma: &self.gamma,
            syndrome: &self.syndrome,
            order: &self.order,
        }
    }

    fn state(&self) -> State {
        State {
            c_to_v: self.step.c_to_v.clone(),
            v_to_c: self.step.v_to_c.clone(),
            posterior: self.step.posterior.clone(),
        }
    }
}

/// The Rust's state after it, which has no clip.
fn rust(model: &Model, case: &Case) -> State {
    let mut decoder = pecos_bp_open::stepping(&model.dem(), case.serial, case.alpha);
    let mut state = case.state();
    pecos_bp_open::iteration(
        &mut decoder,
        &case.gamma,
        &case.syndrome,
        &case.order,
        &mut state,
    );
    state
}

/// That of the copy that has one.
fn clipped(model: &Model, case: &Case) -> State {
    let mut decoder = counting::stepping(&model.dem(), case.serial, case.alpha);
    counting::set_clip(&mut decoder, case.clip.meant());
    let mut state = case.state();
    counting::iteration(
        &mut decoder,
        &case.gamma,
        &case.syndrome,
        &case.order,
        &mut state,
    );
    state
}

/// The first mechanism with a posterior or a message that is not finite.
fn not_finite(given: &Given, state: &State) -> Option<usize> {
    (0..given.size.mechanisms).find(|&mechanism| {
        let part = given.lists.var_offset[mechanism] as usize
            ..given.lists.var_offset[mechanism + 1] as usize;
        let bad = |&message: &u32| {
            let at = message as usize;
            !state.c_to_v[at].is_finite() || !state.v_to_c[at].is_finite()
        };
        !state.posterior[mechanism].is_finite() || given.lists.var_message[part].iter().any(bad)
    })
}

fn small(_: u64, random: &mut SplitMix64, counts: &mut Counts) {
    let most = random.pick(&[2, 4, 6, 9, 14, 24]);
    let model = random_model(random, most, most * 3 / 2);
    compare("iterations, small", &model, Reach::Any, random, counts);
}

/// Checks, mechanisms, edges.
const LARGE: [(usize, usize, usize); 6] = [
    (65_536, 65_536, 1_048_576),
    (1024, 65_536, 1_048_576),
    (65_536, 16_384, 131_072),
    (4000, 8000, 24_000),
    (300, 900, 2700),
    (2, 65_536, 131_072),
];

fn large(case: u64, random: &mut SplitMix64, counts: &mut Counts) {
    let (model, reach) = large_model(case, random);
    compare("iterations, large", &model, reach, random, counts);
}

fn large_model(case: u64, random: &mut SplitMix64) -> (Model, Reach) {
    let (checks, mechanisms, edges) = LARGE[case as usize % LARGE.len()];
    let size = Size {
        checks,
        mechanisms,
        edges,
    };
    let model = model_of(size, random);
    let reach = random.pick(&[Reach::Usual, Reach::Usual, Reach::Usual, Reach::Any]);
    (model, reach)
}

fn small_clipped(_: u64, random: &mut SplitMix64, counts: &mut Counts) {
    let most = random.pick(&[2, 4, 6, 9, 14, 24]);
    let model = random_model(random, most, most * 3 / 2);
    let reach = random.pick(&[Reach::Usual, Reach::Any]);
    let names = [
        "iterations, clipped",
        "iterations, clipped, without the clip",
        "iterations of the copy without the clip",
    ];
    compare_clipped(names, &model, reach, random, counts);
}

fn large_clipped(case: u64, random: &mut SplitMix64, counts: &mut Counts) {
    let (model, reach) = large_model(case, random);
    let names = [
        "iterations, large and clipped",
        "iterations, large and clipped, without the clip",
        "iterations of the copy, large, without the clip",
    ];
    compare_clipped(names, &model, reach, random, counts);
}

/// One iteration over the model from a random state, both ways.
fn compare(
    name: &'static str,
    model: &Model,
    reach: Reach,
    random: &mut SplitMix64,
    counts: &mut Counts,
) {
    let (given, built) = Given::built(model, random);
    let case = Case::of(model, given.size, reach, random);
    let state = rust(model, &case);
    compare_with(name, model, (&given, built), &case, &state, counts);
}

/// The same with a clip, and then without, where the copy that has one must besides leave what the published updates do.
fn compare_clipped(
    [on, off, copy]: [&'static str; 3],
    model: &Model,
    reach: Reach,
    random: &mut SplitMix64,
    counts: &mut Counts,
) {
    let (given, built) = Given::built(model, random);
    let mut case = Case::of(model, given.size, reach, random);
    case.clip = Clip {
        on: clips::some_on(random),
        magnitude: clip_of(&case, random),
    };
    let with = clipped(model, &case);
    compare_with(on, model, (&given, built), &case, &with, counts);
    case.clip = clips::some_off(random);
    let without = rust(model, &case);
    compare_with(off, model, (&given, built), &case, &without, counts);
    let same = bits_of(&clipped(model, &case)) == bits_of(&without);
    counts.check(copy, Ok(()), same, || {
        format!("{model:?}, {:?}", case.iteration())
    });
    let is_other = bits_of(&with) != bits_of(&without);
    counts.note(
        "clips, iterations that came to something else",
        u64::from(is_other),
    );
}

/// Every bit of a state. What is not finite is told apart, but not two NaNs.
fn bits_of(state: &State) -> Vec<u64> {
    let lists = [&state.c_to_v, &state.v_to_c, &state.posterior];
    let value = |value: &f64| if value.is_nan() { f64::NAN } else { *value }.to_bits();
    lists.into_iter().flatten().map(value).collect()
}

/// A clip that 9 takes: about what a check sends whose least message is one of these, or far from any.
fn clip_of(case: &Case, random: &mut SplitMix64) -> f64 {
    let messages = &case.step.v_to_c;
    let least = match messages.len() {
        0 => 30.0,
        count => {
            let some = messages[random.below(count)].abs();
            random.pick(&[30.0, some])
        }
    };
    let sent = case.alpha * least;
    let clip = match random.below(8) {
        0 => random.pick(&[5e-324, 1e-310, 1e-300, 1e200, f64::MAX]),
        1 => sent,
        2 => sent.next_down(),
        3 => sent.next_up(),
        4 => sent * random.unit(),
        _ => 0.1 + 5.0 * random.unit(),
    };
    if clip > 0.0 && clip < f64::INFINITY {
        clip
    } else {
        1.0
    }
}

/// One iteration beside the state that it must leave.
fn compare_with(
    name: &'static str,
    model: &Model,
    (given, built): (&Given, Answer),
    case: &Case,
    state: &State,
    counts: &mut Counts,
) {
    let mut left = case.step.clone();
    let answer = given.iteration(case.iteration(), &mut left);
    let wanted = match not_finite(given, state) {
        Some(mechanism) => Err((30, mechanism as u64)),
        None => Ok(()),
    };
    let same = if wanted.is_ok() {
        bits(&left.c_to_v) == bits(&state.c_to_v)
            && bits(&left.v_to_c) == bits(&state.v_to_c)
            && bits(&left.posterior) == bits(&state.posterior)
    } else {
        is_zero(&left.c_to_v) && is_zero(&left.v_to_c) && is_zero(&left.posterior)
    };
    counts.check(
        name,
        wanted,
        built == Ok(()) && answer == wanted && same && is_zero(&left.bias),
        || {
            format!(
                "{answer:?}, {left:?} for {wanted:?}, {state:?}: {model:?}, {:?}",
                case.iteration()
            )
        },
    );
}

/// What the reference's table says before the step: 1, 2, 4, 7, 9, 10, 20, 21, 22, 23, 25.
fn wanted_before(given: &Given, case: &Case) -> Answer {
    wanted_lists(given)?;
    let size = given.size;
    wanted_clip(case.clip)?;
    wanted_alpha(case.alpha)?;
    wanted_syndrome(&case.syndrome, size.checks)?;
    let step = &case.step;
    wanted_lengths(
        size,
        &[&case.gamma, &step.posterior, &step.bias],
        &[&step.c_to_v, &step.v_to_c],
    )?;
    wanted_names(&case.order, size.checks)?;
    let tested = [&step.c_to_v, &step.v_to_c, &step.posterior, &case.gamma];
    let mut values = tested.into_iter().flatten();
    test(values.all(|value| value.is_finite()), 25)
}

fn damaged(_: u64, random: &mut SplitMix64, counts: &mut Counts) {
    compare_damaged("iterations, damaged", Clip::OFF, random, counts);
}

fn damaged_clipped(_: u64, random: &mut SplitMix64, counts: &mut Counts) {
    let clip = clips::some_clip(random);
    compare_damaged("iterations, damaged, with a clip", clip, random, counts);
}

fn compare_damaged(name: &'static str, clip: Clip, random: &mut SplitMix64, counts: &mut Counts) {
    let most = random.pick(&[1, 2, 3, 8]);
    let model = random_model(random, most, most);
    let (mut given, built) = Given::built(&model, random);
    let mut case = Case::of(&model, given.size, Reach::Any, random);
    case.clip = clip;
    for _ in 0..random.between(1, 2) {
        match random.below(9) {
            0 => nudge_length(random, &mut case.syndrome, 1),
            1 => {
                let bad = [0.0, -0.0, -1.0, f64::NAN, f64::INFINITY, f64::NEG_INFINITY];
                case.alpha = random.pick(&bad);
            }
            2 if !case.syndrome.is_empty() => {
                let at = random.below(case.syndrome.len());
                case.syndrome[at] = random.pick(&[2, 3, 255]);
            }
            3 => {
                let which = random.below(5);
                match which {
                    4 => nudge_length(random, &mut case.gamma, 0.5),
                    _ => nudge_length(random, case.step.each()[which], 2.5),
                }
            }
            4 => nudge_length(random, &mut case.order, 0),
            5 if !case.order.is_empty() => {
                let at = random.below(case.order.len());
                case.order[at] = random.pick(&[0, 1, 65_535, 65_536, u32::MAX]);
            }
            6 => {
                let which = random.below(4);
                let list = match which {
                    3 => &mut case.gamma,
                    _ => &mut *case.step.each()[which],
                };
                if !list.is_empty() {
                    let at = random.below(list.len());
                    list[at] =
                        random.pick(&[f64::NAN, -f64::NAN, f64::INFINITY, f64::NEG_INFINITY]);
                }
            }
            _ => damage_lists(random, &mut given),
        }
    }
    ask(name, (&given, built), &mut case, counts);
}

/// An iteration that the table may refuse, and the number that does.
fn ask(
    name: &'static str,
    (given, built): (&Given, Answer),
    case: &mut Case,
    counts: &mut Counts,
) -> Option<u64> {
    let wanted = wanted_before(given, case);
    let mut left = case.step.clone();
    let answer = given.iteration(case.iteration(), &mut left);
    let kept = left
        .each()
        .iter()
        .zip(case.step.each())
        .all(|(now, before)| bits(now) == bits(before));
    let good = match wanted {
        // What the step leaves is what the others show, but for zeroes.
        Ok(()) => {
            is_zero(&left.bias)
                && match answer {
                    Ok(()) => true,
                    Err((number, _)) => {
                        number == 30 && left.each().iter().all(|list| is_zero(list))
                    }
                }
        }
        Err(_) => answer == wanted && kept,
    };
    counts.check(name, wanted, good && built == Ok(()), || {
        format!(
            "{answer:?} for {wanted:?}: {given:?}, {:?}",
            case.iteration()
        )
    });
    answer.err().map(|(number, _)| number)
}

/// The number of a test, and what makes it refuse.
type Fault = (u64, fn(&mut Given, &mut Case));

/// Of every test of an iteration but 9.
const FAULTS: [Fault; 10] = [
    (1, |given, _| given.size.checks = MOST_COUNT + 1),
    (2, |given, _| given.priors.push(0.0)),
    (4, |given, _| given.priors[1] = 31.0),
    (7, |given, _| given.lists.check_var.swap(0, 1)),
    (10, |_, case| case.alpha = -0.0),
    (20, |_, case| case.syndrome.push(0)),
    (21, |_, case| case.syndrome[1] = 2),
    (22, |_, case| case.gamma.push(0.5)),
    (23, |_, case| case.order[0] = case.order[1]),
    (25, |_, case| case.gamma[2] = f64::NAN),
];

/// Nothing but 9, and then each of the other faults beside it.
const ORDERS_OF_TESTS: u64 = 1 + FAULTS.len() as u64;

/// A fault beside a bad clip that is on, which is 9 behind 7 and before 10, and beside the same that is off.
fn order_of_tests(number: u64, random: &mut SplitMix64, counts: &mut Counts) {
    let fault = (number as usize).checked_sub(1).map(|place| FAULTS[place]);
    for magnitude in BAD_CLIPS {
        for on in [0, 1, 2, 128, 255] {
            let model = Model::g();
            let (mut given, built) = Given::built(&model, random);
            let mut case = Case::of(&model, given.size, Reach::Usual, random);
            case.clip = Clip { on, magnitude };
            if let Some((_, spoil)) = fault {
                spoil(&mut given, &mut case);
            }
            let name = "iterations, 9 and another";
            let number = ask(name, (&given, built), &mut case, counts);
            let nine = (on != 0).then_some(9);
            let other = fault.map(|(number, _)| number);
            let first = other.into_iter().chain(nine).min();
            counts.check(
                "iterations, 9 in its place",
                first.map_or(Ok(()), |number| Err((number, 0))),
                number == first,
                || format!("{number:?} for {first:?}: {:?}", case.iteration()),
            );
        }
    }
}
