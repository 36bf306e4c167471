//! The cases of Relay decodes.

use crate::answers::{Decoded, Refusal};
use crate::line::{Kind, Line};
use crate::model::{Model, random_model};
use crate::splitmix::{Rule, SplitMix64, relay_sets};

const SEED: u64 = 0x6465_636f_6465_0003;
const RANDOM: usize = 600;
const SEED_OF_CLIPPED: u64 = 0x636c_6970_7065_0004;
const RANDOM_CLIPPED: usize = 60;
const SEED_OF_SHOTS: u64 = 0x7368_6f74_7300_0005;
const RANDOM_BY_SHOT: usize = 24;
const MOST_LEGS: usize = 16;

/// Where the gammas of relayed legs come from.
#[derive(Clone, Debug)]
pub enum Source {
    /// The reference's draw from the shot's seed, by a rule; the Rust gets it as explicit sets.
    Seeded(Rule),
    Explicit(Vec<Vec<f64>>),
}

#[derive(Clone, Debug)]
pub struct Settings {
    pub serial: bool,
    pub alpha: f64,
    /// Of a check's message, where it is on. The Rust has none: one copy of it has.
    pub clip: Option<f64>,
    pub gamma0: f64,
    pub pre_iterations: usize,
    pub num_legs: usize,
    pub leg_iterations: usize,
    pub low: f64,
    pub high: f64,
    pub stop: usize,
    pub source: Source,
}

#[derive(Clone, Debug)]
pub struct DecodeCase {
    pub model: Model,
    pub settings: Settings,
    pub syndrome: Vec<u8>,
    pub seed: u64,
}

impl Settings {
    /// What the reference's small runs use: alpha 1, gamma0 0, no relayed legs. A case that has some draws as cases did before there was
    /// another rule.
    pub fn plain(serial: bool, pre_iterations: usize) -> Self {
        Self {
            serial,
            alpha: 1.0,
            clip: None,
            gamma0: 0.0,
            pre_iterations,
            num_legs: 0,
            leg_iterations: 0,
            low: 0.0,
            high: 0.0,
            stop: 1,
            source: Source::Seeded(Rule::SeedXorLeg),
        }
    }

    /// The rule of the draw, none where the sets are explicit.
    pub fn rule(&self) -> Option<Rule> {
        match self.source {
            Source::Seeded(rule) => Some(rule),
            Source::Explicit(_) => None,
        }
    }

    /// The same with gammas drawn by a rule.
    pub fn drawn(self, rule: Rule) -> Self {
        Self {
            source: Source::Seeded(rule),
            ..self
        }
    }

    /// The default operating point with the draw that it had before there was another rule.
    pub fn point_before() -> Self {
        Self::default_point().drawn(Rule::SeedXorLeg)
    }

    /// The reference's default operating point.
    pub fn default_point() -> Self {
        Self {
            serial: false,
            alpha: 1.0,
            clip: None,
            gamma0: 0.1,
            pre_iterations: 80,
            num_legs: 40,
            leg_iterations: 60,
            low: -0.24,
            high: 0.66,
            stop: 1,
            source: Source::Seeded(Rule::ByShot),
        }
    }
}

impl DecodeCase {
    /// The sets that the Rust is handed; none where no leg would use one.
    pub fn explicit_sets(&self) -> Option<Vec<Vec<f64>>> {
        let settings = &self.settings;
        match &settings.source {
            Source::Explicit(sets) => Some(sets.clone()),
            Source::Seeded(_) if settings.num_legs == 0 => None,
            Source::Seeded(rule) => Some(relay_sets(
                *rule,
                self.seed,
                settings.num_legs,
                self.model.mechanisms(),
                (settings.low, settings.high),
            )),
        }
    }

    /// Whether its draw, if it has one, takes the seed: 27 where it does not.
    pub fn takes_seed(&self) -> bool {
        self.settings
            .rule()
            .is_none_or(|rule| rule.takes(self.seed))
    }

    pub fn line(&self, priors: &[f64], answer: &Result<Decoded, Refusal>) -> String {
        let mut line = Line::of(Kind::Decode);
        self.model.write(priors, &mut line);
        let settings = &self.settings;
        line.count(usize::from(settings.serial));
        line.float(settings.alpha);
        line.count(usize::from(settings.clip.is_some()));
        line.float(settings.clip.unwrap_or(0.0));
        line.float(settings.gamma0);
        line.counts([
            &settings.pre_iterations,
            &settings.num_legs,
            &settings.leg_iterations,
        ]);
        line.floats(&[settings.low, settings.high]);
        line.count(settings.stop);
        match &settings.source {
            Source::Seeded(Rule::ByShot) => line.counts([&0, &0]),
            Source::Seeded(Rule::SeedXorLeg) => line.counts([&2, &0]),
            Source::Explicit(sets) => {
                line.counts([&1, &sets.len()]);
                sets.iter().for_each(|set| line.floats(set));
            }
        }
        line.count(self.syndrome.len());
        line.bytes(&self.syndrome);
        line.number(self.seed);
        line.answer(answer, Decoded::write);
        line.finish()
    }
}

/// Those that the Rust answers, none with a clip.
pub fn cases() -> Vec<DecodeCase> {
    let mut cases = fixed();
    cases.extend(spoiled().into_iter().map(|(_, case)| case));
    cases.extend(borders());
    let mut random = SplitMix64::new(SEED);
    for number in 0..RANDOM {
        let case = random_case(&mut random, number);
        // The same run with the drawn sets handed in, where they are short enough to write down.
        let twin = number % 9 == 0 && case.settings.num_legs <= 4 && case.model.mechanisms() <= 10;
        cases.extend(twin.then(|| as_explicit(&case)).flatten());
        cases.push(case);
    }
    cases.extend([false, true].map(heavy));
    cases.extend(by_shot());
    cases
}

/// The same case with the drawn sets handed in, if it draws any.
fn as_explicit(case: &DecodeCase) -> Option<DecodeCase> {
    let (Source::Seeded(_), Some(sets)) = (&case.settings.source, case.explicit_sets()) else {
        return None;
    };
    let mut explicit = case.clone();
    explicit.settings.source = Source::Explicit(sets);
    Some(explicit)
}

/// A case from its parts.
fn case(model: Model, settings: Settings, syndrome: Vec<u8>) -> DecodeCase {
    DecodeCase {
        model,
        settings,
        syndrome,
        seed: 7,
    }
}

/// Three mechanisms that set off eight neighbouring checks of ten each, or 13 of 14 under CheckSerial, in a ring; priors 4; the published
/// point. The first happened, and under CheckSerial the third too, which no leg finds in time: a mechanism sums up what so many checks say and
/// hands it back to each, so messages grow fourfold with each iteration, 75-fold under CheckSerial, until the posterior is not finite.
pub fn heavy(serial: bool) -> DecodeCase {
    let (checks, degree) = if serial { (14, 13) } else { (10, 8) };
    let detectors = |first: u32| {
        let mut list: Vec<u32> = (first..first + degree)
            .map(|place| place % checks)
            .collect();
        list.sort_unstable();
        list
    };
    let model = Model {
        checks: checks as usize,
        probabilities: vec![crate::model::probability_of(4.0); 3],
        detectors: (0..3).map(detectors).collect(),
    };
    let settings = Settings {
        serial,
        ..Settings::point_before()
    };
    let syndrome = model.syndrome_of(&[true, false, serial]);
    case(model, settings, syndrome)
}

/// The reference's small runs and its default operating point.
fn fixed() -> Vec<DecodeCase> {
    let free = Model {
        checks: 0,
        probabilities: vec![0.3, 0.7, 0.5, 0.0, 1.0],
        detectors: vec![vec![]; 5],
    };
    let empty_check = Model {
        checks: 2,
        probabilities: vec![0.1, 0.9],
        detectors: vec![vec![], vec![1]],
    };
    let ring = ring();
    let mut cases = vec![
        case(Model::g(), Settings::plain(false, 1), vec![1, 0]),
        case(Model::g(), Settings::plain(false, 2), vec![1, 0]),
        case(Model::g(), Settings::plain(true, 1), vec![1, 0]),
        case(Model::g(), Settings::plain(true, 2), vec![1, 0]),
        case(Model::g(), Settings::point_before(), vec![1, 1]),
        case(ring.clone(), Settings::point_before(), vec![1, 0, 1, 0, 0]),
        // An odd syndrome on a ring has no correction: every leg runs out.
        case(ring.clone(), Settings::point_before(), vec![1, 0, 0, 0, 0]),
    ];
    for serial in [false, true] {
        for probability in [crate::model::probability_of(2.0), 0.0, 0.5, 1.0] {
            for bit in [0, 1] {
                let settings = Settings::plain(serial, 1);
                cases.push(case(Model::single(probability), settings, vec![bit]));
            }
        }
        cases.push(case(Model::nothing(), Settings::plain(serial, 1), vec![]));
        cases.push(case(Model::nothing(), relayed(serial), vec![]));
        cases.push(case(free.clone(), relayed(serial), vec![]));
        cases.push(case(empty_check.clone(), relayed(serial), vec![0, 1]));
        cases.push(case(empty_check.clone(), relayed(serial), vec![1, 0]));
        // Every number of legs, all of them run.
        for num_legs in 0..=MOST_LEGS {
            let mut settings = relayed(serial);
            settings.num_legs = num_legs;
            cases.push(case(ring.clone(), settings, vec![1, 0, 0, 0, 0]));
        }
        cases.push(case(ring.clone(), relayed(serial), vec![1, 0, 1, 0, 0]));
    }
    cases
}

/// Each of five mechanisms on two neighbouring checks of five.
pub fn ring() -> Model {
    Model {
        checks: 5,
        probabilities: vec![0.05, 0.04, 0.03, 0.02, 0.01],
        detectors: (0..5).map(|c| vec![c, (c + 1) % 5]).collect(),
    }
}

/// Short legs, and as many as the lists have.
fn relayed(serial: bool) -> Settings {
    Settings {
        serial,
        num_legs: MOST_LEGS,
        leg_iterations: 3,
        low: -0.24,
        high: 0.66,
        stop: 3,
        ..Settings::plain(serial, 2)
    }
}

/// The least number that 27 refuses.
pub const TOO_LARGE: u64 = 1 << 48;

/// Those with gammas drawn by shot, and their borders.
fn by_shot() -> Vec<DecodeCase> {
    let mut cases = Vec::new();
    let of_shot = |case: DecodeCase, shot: u64| DecodeCase {
        settings: case.settings.clone().drawn(Rule::ByShot),
        seed: shot,
        ..case
    };
    for serial in [false, true] {
        // All 16 legs run. 40 and 41 are the seeds that share starts by the other rule.
        let odd = case(ring(), relayed(serial), vec![1, 0, 0, 0, 0]);
        for shot in [0, 1, 40, 41, TOO_LARGE - 1] {
            cases.push(of_shot(odd.clone(), shot));
        }
        let even = case(ring(), relayed(serial), vec![1, 0, 1, 0, 0]);
        let shot = of_shot(even, TOO_LARGE - 1);
        cases.extend(as_explicit(&shot));
        cases.push(shot);
    }
    cases.push(case(ring(), Settings::default_point(), vec![1, 0, 1, 0, 0]));
    let mut random = SplitMix64::new(SEED_OF_SHOTS);
    let most = cases.len() + RANDOM_BY_SHOT;
    while cases.len() < most {
        let case = random_case(&mut random, cases.len());
        if case.settings.rule().is_none() {
            continue;
        }
        let shot = some_shot(&mut random);
        cases.push(of_shot(case, shot));
    }
    // 27, with legs and without, and what takes the same seeds.
    for seed in [TOO_LARGE, u64::MAX] {
        for serial in [false, true] {
            let legs = case(Model::g(), relayed(serial), vec![1, 0]);
            let none = case(Model::g(), Settings::plain(serial, 2), vec![1, 0]);
            for case in [legs, none] {
                cases.push(of_shot(case.clone(), seed));
                cases.push(DecodeCase { seed, ..case });
            }
        }
        cases.push(DecodeCase { seed, ..good() });
    }
    cases.extend(beside_27().into_iter().map(|(_, case)| case));
    cases
}

/// A shot number that 27 takes: small, of any size, or about the limit.
pub fn some_shot(random: &mut SplitMix64) -> u64 {
    match random.below(4) {
        0 => random.below(64) as u64,
        1 => TOO_LARGE - 1 - random.below(64) as u64,
        _ => random.draw() >> random.between(16, 63),
    }
}

/// A shot number that is too large beside each other fault that a drawn case can have, with the number that must come first: 27 is behind all
/// that the Rust tests, and before the legs, which would come to 30.
pub fn beside_27() -> Vec<(usize, DecodeCase)> {
    let too_large = DecodeCase {
        settings: good().settings.drawn(Rule::ByShot),
        seed: TOO_LARGE,
        ..good()
    };
    let mut cases: Vec<(usize, DecodeCase)> = SPOILED
        .iter()
        .filter(|(code, _)| ![17, 19].contains(code))
        .map(|(code, spoil)| {
            let mut case = too_large.clone();
            spoil(&mut case);
            (*code, case)
        })
        .collect();
    let mut huge = too_large;
    huge.settings.alpha = 1e308;
    cases.push((27, huge.clone()));
    huge.seed = TOO_LARGE - 1;
    cases.push((30, huge));
    cases
}

/// Clips that 9 refuses.
pub const BAD_CLIPS: [f64; 8] = [
    f64::NAN,
    f64::INFINITY,
    f64::NEG_INFINITY,
    0.0,
    -0.0,
    -1.0,
    -5e-324,
    f64::MIN,
];

/// Those that have a clip, which the published Rust has not: a copy of it answers them.
pub fn clipped() -> Vec<DecodeCase> {
    let mut cases = Vec::new();
    let mut add = |mut case: DecodeCase, clips: &[f64]| {
        for &clip in clips {
            case.settings.clip = Some(clip);
            cases.push(case.clone());
        }
    };
    // The least clip that there is, the greatest, and some that no message here reaches.
    let ends = [5e-324, f64::MIN_POSITIVE, 1e300, f64::MAX];
    for serial in [false, true] {
        // A check's message has the magnitude 4 at first.
        let below = 4.0_f64.next_down();
        let about = [4.0, below, 4.0_f64.next_up(), 2.0, 0.5, 12.0];
        for pre_iterations in [1, 2, 5] {
            let settings = Settings::plain(serial, pre_iterations);
            add(case(Model::g(), settings, vec![1, 0]), &about);
        }
        add(
            case(Model::g(), Settings::plain(serial, 3), vec![1, 1]),
            &ends,
        );
        // A check of one entry sends alpha times 30, which is at the clip, beyond it, or within it. A clip of the prior's size leaves a zero.
        let single = Model::single(crate::model::probability_of(2.0));
        for (alpha, clips) in [
            (1.0, [30.0, 30.0_f64.next_down(), 29.0, 2.0, 1.0]),
            (2.0, [60.0, 60.0_f64.next_down(), 30.0, 2.0, 0.125]),
            (1e308, [1e308, 30.0, 2.0, 1.0, f64::MAX]),
        ] {
            for bit in [0, 1] {
                let settings = Settings {
                    alpha,
                    ..Settings::plain(serial, 2)
                };
                add(case(single.clone(), settings, vec![bit]), &clips);
            }
        }
        // Messages that overflow, and are clipped. Two of the greatest clip overflow again where they are summed up.
        for alpha in [1e300, f64::MAX] {
            let settings = Settings {
                alpha,
                ..Settings::plain(serial, 4)
            };
            add(case(Model::g(), settings, vec![1, 1]), &[30.0, f64::MAX]);
        }
        add(
            case(ring(), relayed(serial), vec![1, 0, 1, 0, 0]),
            &[3.0, 0.25],
        );
        add(
            case(ring(), relayed(serial), vec![1, 0, 0, 0, 0]),
            &[3.0, 0.25],
        );
        add(heavy(serial), &[30.0, 20.0]);
    }
    add(
        case(Model::nothing(), Settings::plain(false, 1), vec![]),
        &[1.0],
    );
    // 9, and that it comes before the others.
    add(good(), &BAD_CLIPS);
    for (_, spoil) in SPOILED {
        let mut spoiled = good();
        spoil(&mut spoiled);
        add(spoiled, &[0.0, 1.0]);
    }
    let mut random = SplitMix64::new(SEED_OF_CLIPPED);
    for number in 0..RANDOM_CLIPPED {
        let case = random_case(&mut random, number);
        let clip = random_clip(&mut random, &case);
        add(case, &[clip]);
    }
    cases
}

/// A clip that 9 takes: of the size of messages, or of one that arises, or the next float to it, or far from any.
pub fn random_clip(random: &mut SplitMix64, case: &DecodeCase) -> f64 {
    let DecodeCase {
        model, settings, ..
    } = case;
    // What a check of one entry sends, and what one whose least entry is this prior sends at first.
    let prior = match model.mechanisms() {
        0 => 1.0,
        count => {
            let probability = model.probabilities[random.below(count)];
            crate::exact::drive::priors(&[probability])[0].abs()
        }
    };
    let sent = settings.alpha * random.pick(&[30.0, prior]);
    let clip = match random.below(16) {
        0 => random.pick(&[5e-324, 1e-310, f64::MIN_POSITIVE, 1e-300, 1e-20]),
        1 => random.pick(&[1e20, 1e150, 1e300, f64::MAX / 2.0, f64::MAX]),
        2 => 30.0,
        3 | 4 => sent,
        5 => sent.next_down(),
        6 => sent.next_up(),
        7 => sent * random.unit(),
        8..=11 => 0.1 + 9.9 * random.unit(),
        _ => 0.1 + 39.9 * random.unit(),
    };
    if clip > 0.0 && clip < f64::INFINITY {
        clip
    } else {
        1.0
    }
}

type Spoil = fn(&mut DecodeCase);

/// Ways to spoil a good case, by the number of the refusal that each one earns.
const SPOILED: [(usize, Spoil); 10] = [
    (10, |case| case.settings.alpha = 0.0),
    (11, |case| case.settings.gamma0 = f64::NAN),
    (12, |case| case.settings.pre_iterations = 0),
    (14, |case| case.settings.leg_iterations = 0),
    (15, |case| case.settings.low = 1.0),
    (16, |case| case.settings.stop = 0),
    (17, |case| case.settings.source = Source::Explicit(vec![])),
    (19, |case| {
        // Nothing to spoil where the sets are gone already.
        if let Source::Explicit(sets) = &mut case.settings.source
            && sets.len() == 2
        {
            sets[1][2] = f64::INFINITY;
        }
    }),
    (20, |case| {
        case.syndrome.pop();
    }),
    (21, |case| case.syndrome[0] = 2),
];

/// A case that nothing is wrong with, for spoiling.
fn good() -> DecodeCase {
    DecodeCase {
        model: Model::g(),
        settings: Settings {
            num_legs: 2,
            leg_iterations: 2,
            low: -0.25,
            high: 0.5,
            source: Source::Explicit(vec![vec![0.1, 0.2, 0.3], vec![-0.1, 0.0, 0.5]]),
            ..Settings::plain(false, 2)
        },
        syndrome: vec![1, 0],
        seed: 0,
    }
}

/// Every refusal of settings and syndrome that the Rust shares with the reference, alone and by
/// twos, so that the order of the tests shows; beside each the number that must come first.
pub fn spoiled() -> Vec<(usize, DecodeCase)> {
    let mut cases = Vec::new();
    for (first, (code, spoil)) in SPOILED.iter().enumerate() {
        let mut once = good();
        spoil(&mut once);
        cases.push((*code, once.clone()));
        for (_, spoil_again) in &SPOILED[first + 1..] {
            let mut twice = once.clone();
            spoil_again(&mut twice);
            cases.push((*code, twice));
        }
    }
    cases
}

/// Other cases at the borders of the tests, refused or just not.
fn borders() -> Vec<DecodeCase> {
    let good = good();
    let mut cases = vec![good.clone()];
    let mut with = |change: &dyn Fn(&mut DecodeCase)| {
        let mut case = good.clone();
        change(&mut case);
        cases.push(case);
    };
    for alpha in [-0.0, -1.0, f64::INFINITY, f64::NEG_INFINITY, f64::NAN] {
        with(&|case| case.settings.alpha = alpha);
    }
    for gamma0 in [f64::INFINITY, f64::NEG_INFINITY] {
        with(&|case| case.settings.gamma0 = gamma0);
    }
    for (low, high) in [
        (f64::NAN, 0.0),
        (0.0, f64::NAN),
        (f64::NEG_INFINITY, 0.0),
        (0.0, f64::INFINITY),
        (-1e308, 1e308),
        (0.5, 0.25),
    ] {
        with(&|case| (case.settings.low, case.settings.high) = (low, high));
        // The interval is tested for the seeded source too.
        with(&|case| {
            (case.settings.low, case.settings.high) = (low, high);
            case.settings.source = Source::Seeded(Rule::SeedXorLeg);
        });
    }
    // An interval of one point, in both zeros, is good.
    with(&|case| (case.settings.low, case.settings.high) = (0.0, -0.0));
    // Without relayed legs neither their iterations nor sets are asked for.
    with(&|case| {
        case.settings.num_legs = 0;
        case.settings.leg_iterations = 0;
        case.settings.source = Source::Explicit(vec![]);
    });
    // But a gamma that no leg uses must be finite all the same.
    for (set, mechanism, gamma) in [(0, 0, f64::NAN), (0, 2, f64::INFINITY), (1, 0, f64::NAN)] {
        with(&|case| {
            case.settings.num_legs = 0;
            if let Source::Explicit(sets) = &mut case.settings.source {
                sets[set][mechanism] = gamma;
            }
        });
    }
    for syndrome in [
        vec![],
        vec![0, 0, 0],
        vec![0, 255],
        vec![2, 3],
        vec![2, 0, 0],
    ] {
        with(&|case| case.syndrome = syndrome.clone());
    }
    cases
}

/// Alphas from the usual to those that overflow at once.
const ALPHAS: [f64; 16] = [
    0.3, 0.5, 0.625, 0.75, 0.9, 1.0, 1.0, 1.0, 1.0, 1.25, 2.0, 10.0, 1e3, 1e100, 1e160, 1e300,
];

pub fn random_case(random: &mut SplitMix64, number: usize) -> DecodeCase {
    let most = [4, 8, 8, 12, 12, 20][number % 6];
    let model = random_model(random, most, most * 3 / 2);
    let mechanisms = model.mechanisms();
    let num_legs = match random.below(4) {
        0 => 0,
        1 => random.between(1, 3),
        2 => random.between(1, 8),
        _ if random.once_in(3) => MOST_LEGS,
        _ => random.between(1, MOST_LEGS),
    };
    let (low, high) = random.pick(&[
        (-0.24, 0.66),
        (-0.24, 0.66),
        (-1.0, 1.0),
        (0.0, 0.0),
        (0.25, 0.25),
        (-3.0, 2.0),
        (-1e150, 1e150),
    ]);
    let explicit = random.once_in(3);
    let source = if explicit {
        let sets = random.between(1, 4);
        Source::Explicit(random_sets(random, sets, mechanisms))
    } else {
        Source::Seeded(Rule::SeedXorLeg)
    };
    let settings = Settings {
        serial: random.once_in(2),
        alpha: random.pick(&ALPHAS),
        clip: None,
        gamma0: random.pick(&[0.0, 0.1, 0.1, 0.5, 0.9, -0.2, -1.0, 1e200]),
        pre_iterations: random.between(1, 10),
        num_legs,
        leg_iterations: random.between(1, 8),
        low,
        high,
        stop: random.between(1, 3),
        source,
    };
    // Most syndromes come of some set of mechanisms, so that there is something to converge to.
    let syndrome = if random.once_in(4) {
        random.bits(model.checks)
    } else {
        let rarity = random.between(2, 8);
        model.syndrome_of(&random.flags(mechanisms, rarity))
    };
    DecodeCase {
        model,
        settings,
        syndrome,
        seed: random.draw(),
    }
}

fn random_sets(random: &mut SplitMix64, sets: usize, mechanisms: usize) -> Vec<Vec<f64>> {
    // Now and then a memory strong enough to overflow in a relayed leg only.
    let strong = random.once_in(5);
    (0..sets)
        .map(|_| {
            (0..mechanisms)
                .map(|_| match random.below(12) {
                    0 => 0.0,
                    1 => -0.0,
                    2 if strong => random.pick(&[1e200, -1e300, f64::MAX]),
                    _ => random.unit() * 1.5 - 0.5,
                })
                .collect()
        })
        .collect()
}
