//! What an answered decode has left, spoiled in one way, of which the reader of `best` must tell the line: so it is seen not to be idle.
//!
//! What no reader can tell is not among the ways: a leg that converged, is not the best, and is marked as one that ran out, with zeroes for its
//! row; and a bit of a correction that did not converge, where a check fails all the same.

use crate::best::{Asked, first_broken, weight_of};
use crate::counts::Counts;
use oracle::splitmix::SplitMix64;
use proved::Decode;

/// The names by the line that is told.
const NAMES: [&str; 6] = [
    "legs, spoiled by a byte that is no bit",
    "legs, spoiled in line 1",
    "legs, spoiled in line 2",
    "legs, spoiled in line 3",
    "legs, spoiled in line 4",
    "legs, spoiled in line 5",
];

/// Some lines, of which one must be told.
type Lines = &'static [usize];

/// Spoils a copy, where it can be spoiled so.
type Way = fn(&mut SplitMix64, &mut Filed) -> Option<Lines>;

const WAYS: [Way; 22] = [
    another_row,
    another_leg,
    a_later_tie,
    another_weight,
    the_next_weight,
    a_legs_weight,
    a_bit_of_the_best,
    a_bit_of_both,
    a_bit_of_another,
    a_bit_with_its_weight,
    the_total,
    a_legs_iterations,
    the_count_of_legs,
    the_count_with_its_total,
    the_flag,
    a_state,
    a_leg_that_is_hidden,
    a_leg_that_ran_out,
    a_leg_beyond,
    an_unfounded_weight,
    the_syndrome,
    no_bit,
];

/// The lists, spoiled in a way that a seed chooses.
pub fn check(asked: Asked, left: &Decode, seed: u64, counts: &mut Counts) {
    let whole = Filed::new(asked, left);
    let (way, filed, lines) = spoiled(&mut SplitMix64::new(seed), &whole);
    let told = filed.told();
    let good = told.is_some_and(|line| lines.contains(&line));
    let line = told.filter(|_| good).unwrap_or(lines[0]);
    counts.check(NAMES[line], Ok(()), good, || {
        format!("{told:?} for {lines:?}, way {way}: {left:?} as {filed:?}")
    });
}

/// By the first way that can be gone, of all in some order.
fn spoiled<'a>(random: &mut SplitMix64, whole: &Filed<'a>) -> (usize, Filed<'a>, Lines) {
    let mut order: Vec<usize> = (0..WAYS.len()).collect();
    random.shuffle(&mut order);
    let mut ways = order.into_iter();
    let gone = ways.find_map(|way| {
        let mut filed = whole.clone();
        let lines = WAYS[way](random, &mut filed)?;
        Some((way, filed, lines))
    });
    gone.expect("a total can be spoiled")
}

/// What was left, to be spoiled, and what is known of it while it is whole.
#[derive(Clone, Debug)]
struct Filed<'a> {
    asked: Asked<'a>,
    syndrome: Vec<u8>,
    left: Decode,
    /// How many legs were executed.
    executed: usize,
    /// Those that converged.
    found: Vec<usize>,
    /// The first of them that has the answer's weight.
    best: Option<usize>,
}

impl<'a> Filed<'a> {
    fn new(asked: Asked<'a>, left: &Decode) -> Self {
        let found = asked.found(left);
        let is_least = |leg: &&usize| left.leg_weight[**leg] == left.weight[0];
        Self {
            asked,
            syndrome: asked.syndrome.to_vec(),
            left: left.clone(),
            executed: asked.executed(left).end,
            best: found.iter().find(is_least).copied(),
            found,
        }
    }

    fn told(&self) -> Option<usize> {
        let asked = Asked {
            syndrome: &self.syndrome,
            ..self.asked
        };
        first_broken(asked, &self.left)
    }

    fn row(&self, leg: usize) -> &[u8] {
        self.asked.row(&self.left, leg)
    }

    fn weight(&self, leg: usize) -> f64 {
        self.left.leg_weight[leg]
    }

    /// The legs that ran out.
    fn ran_out(&self) -> Vec<usize> {
        let has_run_out = |leg: &usize| self.left.leg_state[*leg] == 1;
        (0..self.executed).filter(has_run_out).collect()
    }

    /// One of the converged legs, of those that are wanted.
    fn one_found(
        &self,
        random: &mut SplitMix64,
        is_wanted: impl Fn(usize) -> bool,
    ) -> Option<usize> {
        let wanted: Vec<usize> = self
            .found
            .iter()
            .copied()
            .filter(|&leg| is_wanted(leg))
            .collect();
        one_of(random, &wanted)
    }

    fn take_row(&mut self, leg: usize) {
        self.left.correction = self.row(leg).to_vec();
    }

    fn take_weight(&mut self, leg: usize) {
        self.left.weight = [self.weight(leg)];
    }

    fn turn(&mut self, leg: usize, mechanism: usize) {
        self.left.rows[leg * self.asked.mechanisms() + mechanism] ^= 1;
    }

    fn one_mechanism(&self, random: &mut SplitMix64) -> Option<usize> {
        let all: Vec<usize> = (0..self.asked.mechanisms()).collect();
        one_of(random, &all)
    }
}

fn one_of(random: &mut SplitMix64, list: &[usize]) -> Option<usize> {
    (!list.is_empty()).then(|| random.pick(list))
}

// ---- the answer

/// Another leg's row as the correction.
fn another_row(random: &mut SplitMix64, filed: &mut Filed) -> Option<Lines> {
    let leg = filed.one_found(random, |leg| filed.row(leg) != filed.left.correction)?;
    filed.take_row(leg);
    Some(&[2])
}

/// Another leg's row and weight.
fn another_leg(random: &mut SplitMix64, filed: &mut Filed) -> Option<Lines> {
    let leg = filed.one_found(random, |leg| filed.row(leg) != filed.left.correction)?;
    filed.take_row(leg);
    filed.take_weight(leg);
    Some(&[2])
}

/// The same of a later leg that has the weight of the best, and another row.
fn a_later_tie(random: &mut SplitMix64, filed: &mut Filed) -> Option<Lines> {
    let said = filed.left.weight[0];
    let leg = filed.one_found(random, |leg| {
        filed.weight(leg) == said && filed.row(leg) != filed.left.correction
    })?;
    filed.take_row(leg);
    filed.take_weight(leg);
    Some(&[2])
}

/// Another leg's weight.
fn another_weight(random: &mut SplitMix64, filed: &mut Filed) -> Option<Lines> {
    let said = filed.left.weight[0].to_bits();
    let leg = filed.one_found(random, |leg| filed.weight(leg).to_bits() != said)?;
    filed.take_weight(leg);
    Some(&[2])
}

/// The next float, up or down; or a zero of the other sign.
fn the_next_weight(random: &mut SplitMix64, filed: &mut Filed) -> Option<Lines> {
    filed.best?;
    let [said] = &mut filed.left.weight;
    *said = match random.below(3) {
        0 if *said == 0.0 => -*said,
        0 | 1 => said.next_up(),
        _ => said.next_down(),
    };
    Some(&[2])
}

fn the_flag(random: &mut SplitMix64, filed: &mut Filed) -> Option<Lines> {
    let [flag, ..] = &mut filed.left.counts;
    *flag = random.pick(&[*flag ^ 1, *flag ^ 1, 2]);
    Some(&[1])
}

/// Without convergence there is none, which reads as positive zero.
fn an_unfounded_weight(random: &mut SplitMix64, filed: &mut Filed) -> Option<Lines> {
    if filed.best.is_some() {
        return None;
    }
    filed.left.weight = [random.pick(&[-0.0, 5e-324, 1.0, f64::NAN])];
    Some(&[3])
}

/// One that the correction has not; or that it has, without convergence.
fn the_syndrome(random: &mut SplitMix64, filed: &mut Filed) -> Option<Lines> {
    if filed.best.is_none() {
        filed.syndrome = filed.asked.parities(&filed.left.correction);
        return Some(&[3]);
    }
    let checks: Vec<usize> = (0..filed.syndrome.len()).collect();
    filed.syndrome[one_of(random, &checks)?] ^= 1;
    Some(&[2])
}

// ---- what is counted

fn the_total(random: &mut SplitMix64, filed: &mut Filed) -> Option<Lines> {
    let [_, _, total, _] = &mut filed.left.counts;
    *total = random.pick(&[*total - 1, *total + 1]);
    Some(&[4])
}

/// More or less by one; or none, with a total that is right.
fn a_legs_iterations(random: &mut SplitMix64, filed: &mut Filed) -> Option<Lines> {
    let leg = random.below(filed.executed);
    let steps = &mut filed.left.leg_steps[leg];
    match random.below(3) {
        0 => *steps -= 1,
        1 => *steps += 1,
        _ => {
            filed.left.counts[2] -= u64::from(*steps);
            *steps = 0;
        }
    }
    Some(&[4])
}

/// Fewer legs may leave out the best, or all that converged. More have legs among them that have not run, or that there are not.
fn the_count_of_legs(random: &mut SplitMix64, filed: &mut Filed) -> Option<Lines> {
    let executed = filed.executed as u64;
    let all = filed.asked.legs as u64;
    let count = random.pick(&[executed - 1, executed - 1, executed + 1, all + 1, u64::MAX]);
    filed.left.counts[1] = count;
    Some(match (filed.found.first(), filed.best) {
        (Some(&first), _) if first as u64 >= count => &[1],
        (_, Some(best)) if best as u64 >= count => &[2],
        _ => &[4],
    })
}

/// Fewer legs, and the total of those: then one that was left out has a record that it should not have, unless none is left.
fn the_count_with_its_total(random: &mut SplitMix64, filed: &mut Filed) -> Option<Lines> {
    let count = random.below(filed.executed);
    let left_in = &filed.left.leg_steps[..count];
    let total = left_in.iter().map(|&steps| u64::from(steps)).sum();
    filed.left.counts[1..3].copy_from_slice(&[count as u64, total]);
    Some(match (filed.found.first(), filed.best) {
        (Some(&first), _) if first >= count => &[1],
        (_, Some(best)) if best >= count => &[2],
        _ if count == 0 => &[4],
        _ => &[5],
    })
}

/// A leg that ran out, in the state of one that was not executed, or in none.
fn a_state(random: &mut SplitMix64, filed: &mut Filed) -> Option<Lines> {
    let leg = one_of(random, &filed.ran_out())?;
    filed.left.leg_state[leg] = random.pick(&[0, 3, 255]);
    Some(&[4])
}

// ---- the legs

/// Whether line 2 lets a weight through that a leg is given, other than the best.
fn passes(filed: &Filed, leg: usize, weight: f64) -> bool {
    let said = filed.left.weight[0];
    let is_later = filed.best.is_some_and(|best| best < leg);
    weight.is_finite() && (said < weight || is_later && said == weight)
}

/// A bit of a leg's weight, or none that is finite. If the best leg has others of its weight, one of those may pass for it.
fn a_legs_weight(random: &mut SplitMix64, filed: &mut Filed) -> Option<Lines> {
    let leg = one_of(random, &filed.found)?;
    let said = filed.left.weight[0];
    let alike = filed.found.iter().filter(|&&leg| filed.weight(leg) == said);
    let is_alone = alike.count() == 1;
    // Rather one of the last bits, so that the weight stays near to what it was, or its sign.
    let any = random.below(64);
    let bit = random.pick(&[0, 1, 2, 3, 63, 63, any, any]);
    let weight = match random.below(5) {
        0 => random.pick(&[f64::INFINITY, f64::NEG_INFINITY, f64::NAN]),
        _ => f64::from_bits(filed.weight(leg).to_bits() ^ 1 << bit),
    };
    filed.left.leg_weight[leg] = weight;
    Some(match Some(leg) == filed.best {
        true if is_alone => &[2],
        true => &[2, 5],
        false if passes(filed, leg, weight) => &[5],
        false => &[2],
    })
}

/// A bit of the best leg's row, which is not the correction then.
fn a_bit_of_the_best(random: &mut SplitMix64, filed: &mut Filed) -> Option<Lines> {
    let (leg, mechanism) = (filed.best?, filed.one_mechanism(random)?);
    filed.turn(leg, mechanism);
    Some(&[2])
}

/// The same bit of the correction too: of a mechanism that a check hears, which fails then.
fn a_bit_of_both(random: &mut SplitMix64, filed: &mut Filed) -> Option<Lines> {
    let (leg, mechanism) = (filed.best?, filed.one_mechanism(random)?);
    if filed.asked.detectors[mechanism].is_empty() {
        return None;
    }
    filed.turn(leg, mechanism);
    filed.take_row(leg);
    Some(&[2])
}

/// A bit of another row. If no check hears it and no weight has it, the row is another that could be there.
fn a_bit_of_another(random: &mut SplitMix64, filed: &mut Filed) -> Option<Lines> {
    let leg = filed.one_found(random, |leg| Some(leg) != filed.best)?;
    let mechanism = filed.one_mechanism(random)?;
    filed.turn(leg, mechanism);
    let weight = weight_of(filed.row(leg), filed.asked.priors);
    let is_silent = filed.asked.detectors[mechanism].is_empty()
        && weight.to_bits() == filed.weight(leg).to_bits();
    (!is_silent).then_some(&[5])
}

/// A bit of another row that a check hears, with the weight that the row has then.
fn a_bit_with_its_weight(random: &mut SplitMix64, filed: &mut Filed) -> Option<Lines> {
    let leg = filed.one_found(random, |leg| Some(leg) != filed.best)?;
    let mechanism = filed.one_mechanism(random)?;
    if filed.asked.detectors[mechanism].is_empty() {
        return None;
    }
    filed.turn(leg, mechanism);
    let weight = weight_of(filed.row(leg), filed.asked.priors);
    filed.left.leg_weight[leg] = weight;
    let lines: [Lines; 2] = [&[2], &[5]];
    Some(lines[usize::from(passes(filed, leg, weight))])
}

/// A converged leg in the state of one that ran out, with a row or a weight that is not zero.
fn a_leg_that_is_hidden(random: &mut SplitMix64, filed: &mut Filed) -> Option<Lines> {
    let shows = |leg: usize| filed.row(leg).contains(&1) || filed.weight(leg).to_bits() != 0;
    let leg = filed.one_found(random, |leg| Some(leg) != filed.best && shows(leg))?;
    filed.left.leg_state[leg] = 1;
    Some(&[5])
}

/// What a leg without a correction has in the place of zeroes.
fn not_zero(random: &mut SplitMix64, filed: &mut Filed, leg: usize) -> Option<Lines> {
    if random.once_in(2) {
        let mechanism = filed.one_mechanism(random)?;
        filed.turn(leg, mechanism);
    } else {
        filed.left.leg_weight[leg] = random.pick(&[-0.0, 5e-324, 1.0, f64::NAN]);
    }
    Some(&[5])
}

fn a_leg_that_ran_out(random: &mut SplitMix64, filed: &mut Filed) -> Option<Lines> {
    let leg = one_of(random, &filed.ran_out())?;
    not_zero(random, filed, leg)
}

/// A leg that was not executed.
fn a_leg_beyond(random: &mut SplitMix64, filed: &mut Filed) -> Option<Lines> {
    let beyond: Vec<usize> = (filed.executed..filed.asked.legs).collect();
    let leg = one_of(random, &beyond)?;
    match random.below(3) {
        0 => filed.left.leg_state[leg] = random.pick(&[1, 2, 3]),
        1 => filed.left.leg_steps[leg] = 1,
        _ => return not_zero(random, filed, leg),
    }
    Some(&[5])
}

/// A byte that is no bit and has the parity of the one in its place: in the correction, or in any leg's row.
fn no_bit(random: &mut SplitMix64, filed: &mut Filed) -> Option<Lines> {
    let mechanism = filed.one_mechanism(random)?;
    let leg = random.below(filed.asked.legs);
    let place = leg * filed.asked.mechanisms() + mechanism;
    let more = random.pick(&[2, 4, 128]);
    if random.once_in(2) {
        filed.left.correction[mechanism] += more;
    } else {
        filed.left.rows[place] += more;
    }
    Some(&[0])
}

#[cfg(test)]
mod tests {
    use super::{Filed, WAYS, spoiled};
    use crate::best::by_hand::{asked, converged, not_converged};
    use oracle::splitmix::SplitMix64;

    #[test]
    fn every_way_is_gone_and_told() {
        let mut gone = [0; WAYS.len()];
        for (legs, left) in [(5, converged()), (2, not_converged())] {
            let whole = Filed::new(asked(legs), &left);
            for seed in 0..20_000 {
                let (way, filed, lines) = spoiled(&mut SplitMix64::new(seed), &whole);
                let told = filed.told();
                let is_told = told.is_some_and(|line| lines.contains(&line));
                assert!(is_told, "{told:?} for {lines:?}, way {way}: {filed:?}");
                gone[way] += 1;
            }
        }
        assert!(gone.iter().all(|&times| times > 100), "{gone:?}");
    }
}
