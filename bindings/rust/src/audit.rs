//! A filed record, held to what every decode leaves. Written apart from the proved code, of which it calls nothing.

use crate::{BpGraph, LegOutcome, RelayOutcome};
use std::fmt;

/// Why no decode leaves a record: the first line of [`RelayOutcome::audit`] that does not hold, and where.
///
/// ```
/// use chowderkite::Broken;
///
/// let broken = Broken::RowFails { leg: 3, check: 0 };
/// assert_eq!((broken.line(), broken.leg()), (5, Some(3)));
/// assert_eq!(
///     broken.to_string(),
///     "line 5 does not hold, at leg 3: the leg's correction fails check 0"
/// );
/// ```
#[derive(Clone, Copy, Debug, PartialEq, Eq, Hash)]
pub enum Broken {
    /// 0: the syndrome has not a byte for each check.
    SyndromeLength,
    /// 0: a byte of the syndrome is neither 0 nor 1.
    SyndromeNotBinary,
    /// 0: the correction has not a byte for each mechanism.
    CorrectionLength,
    /// 0: a byte of the correction is neither 0 nor 1.
    CorrectionNotBinary,
    /// 0: more legs were executed than the record has.
    LegsMissing,
    /// 0: the leg's correction has not a byte for each mechanism.
    RowLength {
        /// The leg.
        leg: usize,
    },
    /// 0: a byte of the leg's correction is neither 0 nor 1.
    RowNotBinary {
        /// The leg.
        leg: usize,
    },
    /// 1: the record says converged, and no executed leg is.
    NoLegConverged,
    /// 1: the record says not converged, and an executed leg is.
    LegConverged {
        /// The first such leg.
        leg: usize,
    },
    /// 2: converged without a weight.
    WeightMissing,
    /// 2: the weight is not finite.
    WeightNotFinite,
    /// 2: the leg's weight is not finite.
    LegWeightNotFinite {
        /// The leg.
        leg: usize,
    },
    /// 2: the leg weighs less than the record says.
    LegLighter {
        /// The leg.
        leg: usize,
    },
    /// 2: the leg is the first of this weight, and the record's zero has the other sign.
    OtherZero {
        /// The leg.
        leg: usize,
    },
    /// 2: the leg is the first of this weight, and its correction is not the record's.
    OtherCorrection {
        /// The leg.
        leg: usize,
    },
    /// 2: every converged leg weighs more than the record says.
    WeightOfNoLeg,
    /// 2: the correction has another parity than the syndrome.
    CorrectionFails {
        /// The first such check.
        check: usize,
    },
    /// 3: a weight without convergence.
    WeightUnfounded,
    /// 3: without convergence, a correction that has every parity of the syndrome.
    CorrectionSatisfies,
    /// 4: no leg was executed.
    NothingExecuted,
    /// 4: the leg was executed, and is not marked so or has no iteration.
    LegNotRun {
        /// The leg.
        leg: usize,
    },
    /// 4: the total is not the sum of the executed legs' iterations.
    OtherTotal,
    /// 5: the leg converged, and its correction has another parity than the syndrome.
    RowFails {
        /// The leg.
        leg: usize,
        /// The first such check.
        check: usize,
    },
    /// 5: the leg converged, and its weight is not the sum over its correction.
    OtherSum {
        /// The leg.
        leg: usize,
    },
    /// 5: the leg was not executed, and is marked otherwise.
    LegUncounted {
        /// The leg.
        leg: usize,
    },
}

impl Broken {
    /// The line, 1 to 5; 0 where the record, the graph and the syndrome don't fit each other.
    #[must_use]
    pub const fn line(&self) -> u8 {
        match self {
            Self::SyndromeLength
            | Self::SyndromeNotBinary
            | Self::CorrectionLength
            | Self::CorrectionNotBinary
            | Self::LegsMissing
            | Self::RowLength { .. }
            | Self::RowNotBinary { .. } => 0,
            Self::NoLegConverged | Self::LegConverged { .. } => 1,
            Self::WeightMissing
            | Self::WeightNotFinite
            | Self::LegWeightNotFinite { .. }
            | Self::LegLighter { .. }
            | Self::OtherZero { .. }
            | Self::OtherCorrection { .. }
            | Self::WeightOfNoLeg
            | Self::CorrectionFails { .. } => 2,
            Self::WeightUnfounded | Self::CorrectionSatisfies => 3,
            Self::NothingExecuted | Self::LegNotRun { .. } | Self::OtherTotal => 4,
            Self::RowFails { .. } | Self::OtherSum { .. } | Self::LegUncounted { .. } => 5,
        }
    }

    /// The leg, from 0, where it is one leg that shows it.
    #[must_use]
    pub const fn leg(&self) -> Option<usize> {
        match self {
            Self::RowLength { leg }
            | Self::RowNotBinary { leg }
            | Self::LegConverged { leg }
            | Self::LegWeightNotFinite { leg }
            | Self::LegLighter { leg }
            | Self::OtherZero { leg }
            | Self::OtherCorrection { leg }
            | Self::LegNotRun { leg }
            | Self::RowFails { leg, .. }
            | Self::OtherSum { leg }
            | Self::LegUncounted { leg } => Some(*leg),
            _ => None,
        }
    }

    const fn meaning(self) -> &'static str {
        match self {
            Self::SyndromeLength => "the syndrome has not a byte for each check",
            Self::SyndromeNotBinary => "a byte of the syndrome is neither 0 nor 1",
            Self::CorrectionLength => "the correction has not a byte for each mechanism",
            Self::CorrectionNotBinary => "a byte of the correction is neither 0 nor 1",
            Self::LegsMissing => "more legs were executed than there are",
            Self::RowLength { .. } => "the leg's correction has not a byte for each mechanism",
            Self::RowNotBinary { .. } => "a byte of the leg's correction is neither 0 nor 1",
            Self::NoLegConverged => "converged, and no executed leg is",
            Self::LegConverged { .. } => "not converged, and the leg is",
            Self::WeightMissing => "converged without a weight",
            Self::WeightNotFinite => "the weight is not finite",
            Self::LegWeightNotFinite { .. } => "the leg's weight is not finite",
            Self::LegLighter { .. } => "the leg weighs less",
            Self::OtherZero { .. } => "the first leg of this weight has the other zero",
            Self::OtherCorrection { .. } => "the first leg of this weight has another correction",
            Self::WeightOfNoLeg => "every converged leg weighs more",
            Self::CorrectionFails { .. } => "the correction fails",
            Self::WeightUnfounded => "a weight without convergence",
            Self::CorrectionSatisfies => "not converged, and the correction fails no check",
            Self::NothingExecuted => "no leg was executed",
            Self::LegNotRun { .. } => "the leg was executed, and has not run",
            Self::OtherTotal => "the total is not the sum of the legs' iterations",
            Self::RowFails { .. } => "the leg's correction fails",
            Self::OtherSum { .. } => "the leg's weight is not the sum over its correction",
            Self::LegUncounted { .. } => "the leg was not executed, and is marked otherwise",
        }
    }
}

impl fmt::Display for Broken {
    fn fmt(&self, f: &mut fmt::Formatter<'_>) -> fmt::Result {
        match self.line() {
            0 => write!(f, "does not fit")?,
            line => write!(f, "line {line} does not hold")?,
        }
        if let Some(leg) = self.leg() {
            write!(f, ", at leg {leg}")?;
        }
        write!(f, ": {}", self.meaning())?;
        match self {
            Self::CorrectionFails { check } | Self::RowFails { check, .. } => {
                write!(f, " check {check}")
            }
            _ => Ok(()),
        }
    }
}

impl std::error::Error for Broken {}

impl RelayOutcome {
    /// Holds a record to what every decode leaves: it, the graph and the syndrome in, and out the first line that does not hold.
    ///
    /// It is for records that were filed, and come back from a disk or from somebody else. These lines are proved of every decode
    /// that is answered:
    ///
    /// 1. The record says converged exactly when an executed leg is: one of the first [`executed_legs`](Self::executed_legs).
    /// 2. Then its correction and weight are those of an executed converged leg, bit for bit. No executed converged leg weighs
    ///    less, and every earlier one weighs more. The correction has every parity of the syndrome, and weights are finite.
    /// 3. Otherwise the correction fails a check, and there is no weight.
    /// 4. A leg was executed, each executed leg has run, and the total is the sum of their iterations.
    /// 5. The correction of each converged leg has every parity of the syndrome, and its weight is the sum of bit times prior over
    ///    it, in index order from -0.0, bit for bit. A leg that was not executed is marked so.
    ///
    /// Before them come lengths and bytes, as line 0: the syndrome has a byte 0 or 1 for each check, each correction one for each
    /// mechanism, and no more legs were executed than there are.
    ///
    /// Whatever the record's fields hold, it is answered. The test is plain Rust, tested and not proved, with a parity and a sum of
    /// its own, and calls nothing of the archive.
    ///
    /// ```
    /// use chowderkite::{BpGraph, Broken, RelayBp, RelayConfig};
    ///
    /// let graph = BpGraph::from_sparse(2, &[(4.0, vec![0]), (4.0, vec![0, 1]), (4.0, vec![1])])?;
    /// let mut decoder = RelayBp::new(graph.clone(), RelayConfig::default())?;
    /// let mut record = decoder.decode(&[1, 0], 7)?;
    /// assert_eq!(record.audit(&graph, &[1, 0]), Ok(()));
    ///
    /// record.correction[2] ^= 1;
    /// let broken = record.audit(&graph, &[1, 0]).unwrap_err();
    /// assert_eq!(broken, Broken::OtherCorrection { leg: 0 });
    /// assert_eq!((broken.line(), broken.leg()), (2, Some(0)));
    /// # Ok::<(), chowderkite::Error>(())
    /// ```
    ///
    /// # What no reader of a record can tell
    ///
    /// - That a leg has converged which is marked as one that ran out, if it is not the best: its correction is gone, and any leg
    ///   may run out.
    /// - That a leg has run out which is marked as converged, with a correction that has every parity and with its weight, if the
    ///   record's correction and weight are still those of the best leg.
    /// - That a bit is turned in a correction that did not converge, if a check still fails: any bits that fail one may be the last
    ///   hard decision.
    ///
    /// Nor whose the iterations of the total are, nor whether a record was made up whole, and well. Neither the posterior nor
    /// [`stores`](Self::stores) is looked at. To tell these, decode again: a key has but one record.
    ///
    /// # Errors
    ///
    /// The first line that does not hold, and of that line the first leg that shows it.
    pub fn audit(&self, graph: &BpGraph, syndrome: &[u8]) -> Result<(), Broken> {
        self.fits(graph, syndrome)?;
        self.says_whether_converged()?;
        if self.converged {
            self.is_best(graph, syndrome)?;
        } else {
            self.has_failed(graph, syndrome)?;
        }
        self.counts_iterations()?;
        self.has_good_legs(graph, syndrome)
    }

    /// Line 0. What comes after it rests on the lengths.
    fn fits(&self, graph: &BpGraph, syndrome: &[u8]) -> Result<(), Broken> {
        let mechanisms = graph.mechanism_count();
        test(
            syndrome.len() == graph.check_count(),
            Broken::SyndromeLength,
        )?;
        test(are_bits(syndrome), Broken::SyndromeNotBinary)?;
        test(
            self.correction.len() == mechanisms,
            Broken::CorrectionLength,
        )?;
        test(are_bits(&self.correction), Broken::CorrectionNotBinary)?;
        test(self.executed_legs <= self.legs.len(), Broken::LegsMissing)?;
        for (leg, record) in self.legs.iter().enumerate() {
            if let Some(row) = record.correction() {
                test(row.len() == mechanisms, Broken::RowLength { leg })?;
                test(are_bits(row), Broken::RowNotBinary { leg })?;
            }
        }
        Ok(())
    }

    /// The executed legs, which are all there once the record fits.
    fn executed(&self) -> &[LegOutcome] {
        &self.legs[..self.executed_legs]
    }

    /// The executed legs that converged, each with its number, weight and correction.
    fn found(&self) -> impl Iterator<Item = (usize, f64, &[u8])> {
        let legs = self.executed().iter().enumerate();
        legs.filter_map(|(leg, record)| Some((leg, record.weight()?, record.correction()?)))
    }

    /// Line 1.
    fn says_whether_converged(&self) -> Result<(), Broken> {
        match self.found().next() {
            Some((leg, ..)) => test(self.converged, Broken::LegConverged { leg }),
            None => test(!self.converged, Broken::NoLegConverged),
        }
    }

    /// Line 2. Weights alone say which leg it is: the first that does not weigh more than the record says, for every leg before
    /// it must.
    fn is_best(&self, graph: &BpGraph, syndrome: &[u8]) -> Result<(), Broken> {
        let said = self.weight.ok_or(Broken::WeightMissing)?;
        test(said.is_finite(), Broken::WeightNotFinite)?;
        let mut has_best = false;
        for (leg, weight, row) in self.found() {
            test(weight.is_finite(), Broken::LegWeightNotFinite { leg })?;
            test(said <= weight, Broken::LegLighter { leg })?;
            if !has_best && weight <= said {
                has_best = true;
                test(same_bits(said, weight), Broken::OtherZero { leg })?;
                test(self.correction == row, Broken::OtherCorrection { leg })?;
            }
        }
        test(has_best, Broken::WeightOfNoLeg)?;
        match failed_check(graph, syndrome, &self.correction) {
            Some(check) => Err(Broken::CorrectionFails { check }),
            None => Ok(()),
        }
    }

    /// Line 3.
    fn has_failed(&self, graph: &BpGraph, syndrome: &[u8]) -> Result<(), Broken> {
        test(self.weight.is_none(), Broken::WeightUnfounded)?;
        let failed = failed_check(graph, syndrome, &self.correction);
        test(failed.is_some(), Broken::CorrectionSatisfies)
    }

    /// Line 4.
    fn counts_iterations(&self) -> Result<(), Broken> {
        test(self.executed_legs > 0, Broken::NothingExecuted)?;
        let mut total = Some(0_usize);
        for (leg, record) in self.executed().iter().enumerate() {
            // A leg that is marked as not executed has none.
            let iterations = record.iterations();
            test(iterations > 0, Broken::LegNotRun { leg })?;
            total = total.and_then(|total| total.checked_add(iterations));
        }
        // A sum beyond all numbers is no total.
        test(total == Some(self.total_iterations), Broken::OtherTotal)
    }

    /// Line 5. That the weights are finite was line 2.
    fn has_good_legs(&self, graph: &BpGraph, syndrome: &[u8]) -> Result<(), Broken> {
        for (leg, weight, row) in self.found() {
            if let Some(check) = failed_check(graph, syndrome, row) {
                return Err(Broken::RowFails { leg, check });
            }
            test(same_bits(weight, sum(graph, row)), Broken::OtherSum { leg })?;
        }
        let mut rest = (self.executed_legs..).zip(&self.legs[self.executed_legs..]);
        match rest.find(|(_, record)| **record != LegOutcome::NotExecuted) {
            Some((leg, _)) => Err(Broken::LegUncounted { leg }),
            None => Ok(()),
        }
    }
}

const fn test(holds: bool, broken: Broken) -> Result<(), Broken> {
    if holds {
        Ok(())
    } else {
        Err(broken)
    }
}

fn are_bits(bytes: &[u8]) -> bool {
    bytes.iter().all(|&byte| byte <= 1)
}

fn same_bits(one: f64, other: f64) -> bool {
    one.to_bits() == other.to_bits()
}

/// The first check whose parity is not the syndrome's.
fn failed_check(graph: &BpGraph, syndrome: &[u8], correction: &[u8]) -> Option<usize> {
    let parity = |check: usize| {
        let mechanisms = graph.mechanisms(check).iter();
        mechanisms.fold(0, |parity, &mechanism| {
            parity ^ correction[mechanism as usize]
        })
    };
    (0..syndrome.len()).find(|&check| parity(check) != syndrome[check])
}

/// The weight of a correction.
fn sum(graph: &BpGraph, correction: &[u8]) -> f64 {
    let terms = correction.iter().zip(graph.prior_llrs());
    terms.fold(-0.0, |sum, (&bit, prior)| sum + f64::from(bit) * prior)
}
