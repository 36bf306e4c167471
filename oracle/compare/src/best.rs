//! The best of the legs: five lines that hold of what every answered decode leaves, read out of the lists, the model and the syndrome alone.
//! Written from the lines, apart from the proved code, from the Rust and from what `bindings/rust` has for filed records.

use crate::counts::Counts;
use oracle::model::parities;
use proved::{Decode, Lists, Size};
use std::ops::Range;

/// What was decoded.
#[derive(Clone, Copy, Debug)]
pub struct Asked<'a> {
    /// The detectors of each mechanism, in any order.
    pub detectors: &'a [Vec<u32>],
    pub priors: &'a [f64],
    pub syndrome: &'a [u8],
    /// How many legs there could be, leg zero among them. What the lists have beyond is not read.
    pub legs: usize,
}

/// The first line that does not hold, or none; 0 where lists are too short for one, or a byte is no bit.
///
/// 1. The answer says converged exactly when an executed leg has.
/// 2. Then an executed converged leg has the correction for its row, and the answer's weight in its bits; no executed converged leg has a less
///    one, and each earlier one a greater. The correction has every parity of the syndrome. Weights are finite.
/// 3. Otherwise the correction fails a check, and there is no weight.
/// 4. The total is the sum of the executed legs' iterations, each of them has run, and there are from one to all.
/// 5. The row of each converged leg has every parity of the syndrome, and its weight is the sum of bit times prior over it. A leg that ran out
///    has zeroes for row and weight, and one that was not executed nothing but zeroes.
pub fn first_broken(asked: Asked, left: &Decode) -> Option<usize> {
    let reading = Reading { asked, left };
    if !reading.fits() {
        return Some(0);
    }
    let lines = [
        Reading::says_whether,
        Reading::is_best,
        Reading::has_failed,
        Reading::is_counted,
        Reading::is_recorded,
    ];
    let broken = lines.iter().position(|holds| !holds(&reading));
    broken.map(|before| before + 1)
}

/// Counts whether the lines hold of what an answered decode has left, and says so.
pub fn check(name: &'static str, asked: Asked, left: &Decode, counts: &mut Counts) -> bool {
    let broken = first_broken(asked, left);
    counts.check(name, Ok(()), broken.is_none(), || {
        format!("line {broken:?} does not hold of {left:?}: {asked:?}")
    });
    broken.is_none()
}

/// Counts what there was to choose from.
pub fn note(asked: Asked, left: &Decode, counts: &mut Counts) {
    let found = asked.found(left);
    let (heavier, least): (Vec<usize>, Vec<usize>) = found
        .iter()
        .partition(|&&leg| left.leg_weight[leg] > left.weight[0]);
    let is_later = heavier.first() < least.first() && !heavier.is_empty();
    let ties = least
        .iter()
        .any(|&leg| asked.row(left, leg) != left.correction);
    for (name, is_so) in [
        ("legs, decodes that converged", !found.is_empty()),
        ("legs, decodes with two or more that did", found.len() > 1),
        ("legs, decodes whose best was not the first", is_later),
        ("legs, decodes with another correction as good", ties),
    ] {
        counts.note(name, u64::from(is_so));
    }
}

/// The sum of bit times prior, as the reference has it: in index order, from -0.0.
pub fn weight_of(bits: &[u8], priors: &[f64]) -> f64 {
    let mut weight = -0.0;
    for (bit, prior) in bits.iter().zip(priors) {
        weight += f64::from(*bit) * prior;
    }
    weight
}

/// The detectors of each mechanism, as the check lists of a graph tell them.
pub fn detectors_of(size: Size, lists: &Lists) -> Vec<Vec<u32>> {
    let mut detectors = vec![Vec::new(); size.mechanisms];
    for (check, ends) in lists.check_offset.windows(2).enumerate() {
        for &mechanism in &lists.check_var[ends[0] as usize..ends[1] as usize] {
            detectors[mechanism as usize].push(check as u32);
        }
    }
    detectors
}

impl Asked<'_> {
    pub fn mechanisms(&self) -> usize {
        self.detectors.len()
    }

    /// The parities that some bits leave on the checks.
    pub fn parities(&self, bits: &[u8]) -> Vec<u8> {
        let happened: Vec<bool> = bits.iter().map(|bit| *bit == 1).collect();
        parities(self.syndrome.len(), self.detectors.iter().zip(&happened))
    }

    pub fn row<'a>(&self, left: &'a Decode, leg: usize) -> &'a [u8] {
        &left.rows[leg * self.mechanisms()..][..self.mechanisms()]
    }

    /// The executed legs that are there to be read.
    pub fn executed(&self, left: &Decode) -> Range<usize> {
        0..usize::try_from(left.counts[1]).map_or(self.legs, |count| count.min(self.legs))
    }

    /// Those of them that converged.
    pub fn found(&self, left: &Decode) -> Vec<usize> {
        let is_found = |leg: &usize| left.leg_state[*leg] == 2;
        self.executed(left).filter(is_found).collect()
    }
}

struct Reading<'a> {
    asked: Asked<'a>,
    left: &'a Decode,
}

impl Reading<'_> {
    fn fits(&self) -> bool {
        let Self { asked, left } = self;
        let (legs, mechanisms) = (asked.legs, asked.mechanisms());
        let lengths = [
            left.leg_state.len(),
            left.leg_steps.len(),
            left.leg_weight.len(),
        ];
        let are_bits = |bytes: &[u8]| bytes.iter().all(|byte| *byte < 2);
        let rows = left.rows.get(..legs * mechanisms);
        lengths.iter().all(|length| *length >= legs)
            && rows.is_some_and(are_bits)
            && left.correction.len() == mechanisms
            && are_bits(&left.correction)
            && are_bits(asked.syndrome)
    }

    fn satisfies(&self, bits: &[u8]) -> bool {
        self.asked.parities(bits) == self.asked.syndrome
    }

    fn says_converged(&self) -> bool {
        self.left.counts[0] == 1
    }

    fn says_whether(&self) -> bool {
        let found = self.asked.found(self.left);
        self.left.counts[0] <= 1 && self.says_converged() != found.is_empty()
    }

    fn is_best(&self) -> bool {
        let Self { asked, left } = self;
        if !self.says_converged() {
            return true;
        }
        let found = asked.found(left);
        let said = left.weight[0];
        let weight = |leg: usize| left.leg_weight[leg];
        let is_answer = |leg: usize| {
            let mut earlier = found.iter().filter(|other| **other < leg);
            asked.row(left, leg) == left.correction
                && weight(leg).to_bits() == said.to_bits()
                && earlier.all(|&other| said < weight(other))
        };
        said.is_finite()
            && found.iter().all(|&leg| weight(leg).is_finite())
            && found.iter().all(|&leg| said <= weight(leg))
            && found.iter().any(|&leg| is_answer(leg))
            && self.satisfies(&left.correction)
    }

    fn has_failed(&self) -> bool {
        let no_weight = self.left.weight[0].to_bits() == 0;
        self.says_converged() || no_weight && !self.satisfies(&self.left.correction)
    }

    fn is_counted(&self) -> bool {
        let Self { asked, left } = self;
        let [_, executed, total, _] = left.counts;
        let has_run = |leg: usize| matches!(left.leg_state[leg], 1 | 2) && left.leg_steps[leg] > 0;
        let steps = |leg: usize| u64::from(left.leg_steps[leg]);
        (1..=asked.legs as u64).contains(&executed)
            && asked.executed(left).all(has_run)
            && asked.executed(left).map(steps).sum::<u64>() == total
    }

    fn is_recorded(&self) -> bool {
        let Self { asked, left } = self;
        let executed = asked.executed(left);
        (0..asked.legs).all(|leg| {
            let (row, weight) = (asked.row(left, leg), left.leg_weight[leg]);
            let zeroes = row.iter().all(|bit| *bit == 0) && weight.to_bits() == 0;
            match (executed.contains(&leg), left.leg_state[leg]) {
                (true, 2) => {
                    let sum = weight_of(row, asked.priors);
                    self.satisfies(row) && weight.to_bits() == sum.to_bits() && sum.is_finite()
                }
                (true, 1) => zeroes,
                (false, 0) => zeroes && left.leg_steps[leg] == 0,
                _ => false,
            }
        })
    }
}

/// Lists made by hand, for the tests here and of the spoiling.
#[cfg(test)]
pub mod by_hand {
    use super::Asked;
    use proved::Decode;
    use std::sync::LazyLock;

    static DETECTORS: LazyLock<[Vec<u32>; 4]> =
        LazyLock::new(|| [vec![0], vec![0, 1], vec![1], vec![0]]);

    pub fn asked(legs: usize) -> Asked<'static> {
        Asked {
            detectors: &*DETECTORS,
            priors: &[4.0, 1.0, 3.0, 5.0],
            syndrome: &[1, 0],
            legs,
        }
    }

    /// Of a leg its state, iterations, weight and row.
    pub type Leg = (u8, u32, f64, [u8; 4]);

    /// The lists of some legs, and one leg of surplus.
    /// The messages written are none of the five lines.
    pub fn left(legs: &[Leg], counts: [u64; 3], weight: f64, correction: [u8; 4]) -> Decode {
        let [converged, executed, total] = counts;
        let mut legs = legs.to_vec();
        legs.push((9, 9, 9.0, [9; 4]));
        Decode {
            leg_state: legs.iter().map(|leg| leg.0).collect(),
            leg_steps: legs.iter().map(|leg| leg.1).collect(),
            leg_weight: legs.iter().map(|leg| leg.2).collect(),
            rows: legs.iter().flat_map(|leg| leg.3).collect(),
            correction: correction.to_vec(),
            counts: [converged, executed, total, 7],
            weight: [weight],
            ..Decode::default()
        }
    }

    pub const HEAVY: [u8; 4] = [0, 0, 0, 1];
    pub const BEST: [u8; 4] = [1, 0, 0, 0];
    /// As heavy as the best one.
    pub const TIE: [u8; 4] = [0, 1, 1, 0];

    /// Five legs: leg 2 is the best, leg 3 as good, and leg 4 was not executed.
    pub fn converged() -> Decode {
        let legs = [
            (1, 3, 0.0, [0; 4]),
            (2, 2, 5.0, HEAVY),
            (2, 1, 4.0, BEST),
            (2, 2, 4.0, TIE),
            (0, 0, 0.0, [0; 4]),
        ];
        left(&legs, [1, 4, 8], 4.0, BEST)
    }

    /// Two legs that ran out.
    pub fn not_converged() -> Decode {
        let legs = [(1, 3, 0.0, [0; 4]), (1, 2, 0.0, [0; 4])];
        left(&legs, [0, 2, 5], 0.0, [0, 0, 1, 0])
    }
}

#[cfg(test)]
mod tests {
    use super::by_hand::{BEST, HEAVY, TIE, asked, converged, left, not_converged};
    use super::{Asked, first_broken, weight_of};
    use proved::Decode;

    type Change = fn(&mut Decode);

    #[test]
    fn whole_lists_hold() {
        assert_eq!(first_broken(asked(5), &converged()), None);
        assert_eq!(first_broken(asked(2), &not_converged()), None);
    }

    #[test]
    fn what_is_spoiled_is_told() {
        let changes: &[(usize, Change)] = &[
            (0, |left| left.correction[0] = 3),
            (0, |left| left.rows[19] = 2),
            (0, |left| left.rows.truncate(19)),
            (0, |left| left.leg_weight.truncate(4)),
            (0, |left| left.correction.push(0)),
            (1, |left| left.counts[0] = 0),
            (1, |left| left.counts[0] = 2),
            (1, |left| left.counts[1] = 1),
            (2, |left| left.correction = TIE.to_vec()),
            (2, |left| left.correction = HEAVY.to_vec()),
            (2, |left| left.weight = [5.0]),
            (2, |left| left.weight = [4.0_f64.next_down()]),
            (2, |left| left.weight = [f64::NAN]),
            (2, |left| left.counts[1] = 2),
            (2, |left| left.leg_weight[1] = 4.0),
            (2, |left| left.leg_weight[1] = f64::INFINITY),
            (2, |left| left.leg_weight[3] = f64::NAN),
            (2, |left| left.leg_weight[3] = 4.0_f64.next_down()),
            (2, |left| left.leg_state[2] = 1),
            (4, |left| left.counts[1] = 3),
            (4, |left| left.counts[1] = 5),
            (4, |left| left.counts[1] = u64::MAX),
            (4, |left| left.counts[2] = 9),
            (4, |left| left.leg_steps[3] = 0),
            (4, |left| {
                left.leg_steps[3] = 0;
                left.counts[2] = 6;
            }),
            (4, |left| left.leg_state[0] = 0),
            (5, |left| left.leg_weight[3] = 4.0_f64.next_up()),
            (5, |left| left.rows[7] = 0),
            // A row that weighs what it says, and fails.
            (5, |left| {
                left.rows[5] = 1;
                left.leg_weight[1] = 6.0;
            }),
            (5, |left| {
                left.counts[1] = 3;
                left.counts[2] = 6;
            }),
            (5, |left| left.leg_state[3] = 1),
            (5, |left| left.leg_weight[0] = -0.0),
            (5, |left| left.rows[0] = 1),
            (5, |left| left.leg_state[4] = 2),
            (5, |left| left.leg_steps[4] = 1),
            (5, |left| left.leg_weight[4] = -0.0),
            (5, |left| left.rows[16] = 1),
        ];
        for (place, (line, change)) in changes.iter().enumerate() {
            let mut left = converged();
            change(&mut left);
            let told = first_broken(asked(5), &left);
            assert_eq!(told, Some(*line), "change {place}");
        }
        let changes: &[(usize, Change)] = &[
            (1, |left| left.counts[0] = 1),
            (3, |left| left.weight = [-0.0]),
            (3, |left| left.correction = TIE.to_vec()),
            (4, |left| left.counts = [0, 0, 0, 0]),
            (4, |left| left.counts = [0, 3, 14, 7]),
            // The third leg is surplus.
            (4, |left| {
                left.counts = [0, 3, 14, 7];
                left.leg_state[2] = 2;
            }),
        ];
        for (place, (line, change)) in changes.iter().enumerate() {
            let mut left = not_converged();
            change(&mut left);
            let told = first_broken(asked(2), &left);
            assert_eq!(told, Some(*line), "change {place}");
        }
    }

    /// A later leg of the same row and weight may not be told from the best, and neither a surplus leg nor the messages written are read.
    #[test]
    fn what_makes_no_difference() {
        let changes: &[Change] = &[
            |left| {
                left.leg_weight[3] = 4.0;
                left.rows.copy_within(8..12, 12);
            },
            |left| {
                left.leg_state[5] = 2;
                left.rows[20] = 0;
            },
            |left| left.counts[3] += 1,
            // Nobody can tell that leg 1 converged.
            |left| {
                left.leg_state[1] = 1;
                left.leg_weight[1] = 0.0;
                left.rows[7] = 0;
            },
        ];
        for change in changes {
            let mut left = converged();
            change(&mut left);
            assert_eq!(first_broken(asked(5), &left), None);
        }
    }

    /// In index order, from -0.0, and a bit that is not set counts.
    #[test]
    fn weights() {
        let of = |bits: &[u8], priors: &[f64]| weight_of(bits, priors).to_bits();
        let (positive, negative) = (0.0_f64.to_bits(), (-0.0_f64).to_bits());
        assert_eq!(of(&[], &[]), negative);
        assert_eq!(of(&[0], &[1.0]), positive);
        assert_eq!(of(&[0, 1], &[-1.0, -0.0]), negative);
        assert_eq!(
            of(&[1; 3], &[0.1, 0.2, 0.3]),
            (0.1_f64 + 0.2 + 0.3).to_bits()
        );
        assert_ne!(of(&[1; 3], &[0.1, 0.2, 0.3]), of(&[1; 3], &[0.3, 0.2, 0.1]));
    }

    /// Two zeroes are one weight, and the answer's is that of the earlier leg.
    #[test]
    fn signs_of_zeroes() {
        let of = |priors: &'static [f64], legs: [f64; 2], weight: f64| {
            let legs = [(2, 1, legs[0], BEST), (2, 1, legs[1], TIE)];
            let asked = Asked { priors, ..asked(2) };
            first_broken(asked, &left(&legs, [1, 2, 2], weight, BEST))
        };
        let positive = &[0.0, -1.0, 1.0, 0.0];
        assert_eq!(of(positive, [0.0, 0.0], 0.0), None);
        assert_eq!(of(positive, [0.0, 0.0], -0.0), Some(2));
        assert_eq!(of(positive, [0.0, -0.0], 0.0), Some(5));
        assert_eq!(of(positive, [-0.0, 0.0], 0.0), Some(2));
        let negative = &[-0.0; 4];
        assert_eq!(of(negative, [-0.0, -0.0], -0.0), None);
        assert_eq!(of(negative, [-0.0, -0.0], 0.0), Some(2));
        assert_eq!(of(negative, [0.0, 0.0], 0.0), Some(5));
    }
}
