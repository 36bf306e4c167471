//! Records that were filed: every decode's holds, each tampering is told with its line and its leg, and what no reader can tell is
//! not told.

mod common;

use chowderkite::{BpGraph, Broken, LegOutcome, RelayBp, RelayConfig, RelayOutcome, Schedule};
use common::{model_g, Random};
use LegOutcome::{Converged, NotExecuted, RanOut};
use Schedule::{CheckSerial, Flooding};

/// A record with what it was made of.
#[derive(Clone, Debug)]
struct Filed {
    graph: BpGraph,
    syndrome: Vec<u8>,
    record: RelayOutcome,
}

impl Filed {
    fn audit(&self) -> Result<(), Broken> {
        self.record.audit(&self.graph, &self.syndrome)
    }

    /// What is told of the record once something is changed in it.
    fn told(&self, tamper: impl FnOnce(&mut RelayOutcome)) -> Option<Broken> {
        let mut record = self.record.clone();
        tamper(&mut record);
        record.audit(&self.graph, &self.syndrome).err()
    }

    /// The converged legs of a record that holds, each with its weight and its correction.
    fn found(&self) -> Vec<(usize, f64, &[u8])> {
        let legs = self.record.legs.iter().enumerate();
        legs.filter_map(|(leg, record)| Some((leg, record.weight()?, record.correction()?)))
            .collect()
    }

    /// The best leg of a record that holds and converged.
    fn best(&self) -> usize {
        let weight = self.record.weight.unwrap();
        let mut found = self.found().into_iter();
        found.find(|leg| leg.1 == weight).unwrap().0
    }

    /// The first converged leg that weighs less.
    fn lighter(&self, than: f64) -> Option<usize> {
        let mut found = self.found().into_iter();
        found.find(|leg| leg.1 < than).map(|leg| leg.0)
    }

    /// A mechanism that sets off a check.
    fn mechanism(&self) -> usize {
        let mut all = 0..self.graph.mechanism_count();
        all.find(|&m| !self.graph.detectors(m).is_empty()).unwrap()
    }
}

/// The same graph with other priors.
fn with_priors(graph: &BpGraph, prior: impl FnMut() -> f64) -> BpGraph {
    let mut priors = graph.prior_llrs().to_vec();
    priors.fill_with(prior);
    BpGraph::from_lists(graph.check_count(), priors, graph.lists().clone()).unwrap()
}

fn random_model(random: &mut Random, kind: usize) -> BpGraph {
    let (checks, mechanisms) = (2 + random.below(12), 3 + random.below(28));
    let graph = random.model(checks, mechanisms);
    let signed = [-3.0, -0.5, -0.0, 0.0, 0.5, 2.0, 3.5];
    match kind % 4 {
        // Alike, so that weights tie.
        0 => with_priors(&graph, || 2.0),
        // Negative zeroes: every weight is one.
        1 if random.below(4) == 0 => with_priors(&graph, || -0.0),
        1 => with_priors(&graph, || signed[random.below(signed.len())]),
        // Sums that are rounded, so that their order shows.
        2 => with_priors(&graph, || 0.1 + random.below(1000) as f64 / 300.0),
        _ => graph,
    }
}

fn random_settings(random: &mut Random) -> RelayConfig {
    RelayConfig {
        schedule: [Flooding, CheckSerial][random.below(2)],
        alpha: [1.0, 1.0, 0.75, 0.5][random.below(4)],
        gamma0: [0.1, 0.0, 0.5][random.below(3)],
        pre_iterations: 1 + random.below(6),
        num_legs: random.below(8),
        leg_iterations: 1 + random.below(5),
        gamma_range: [(-0.24, 0.66), (-1.0, 1.0)][random.below(2)],
        stop_after_converged: 1 + random.below(5),
        ..RelayConfig::default()
    }
}

/// So many decodes: both schedules, several settings, priors of every sign and priors that are alike.
fn decodes(seed: u64, count: usize) -> Vec<Filed> {
    let mut random = Random::new(seed);
    let one = |kind: usize| {
        let graph = random_model(&mut random, kind);
        let happened = random.below(6);
        let mut syndrome = random.syndrome(&graph, happened);
        if random.below(6) == 0 {
            syndrome.fill_with(|| random.below(2) as u8);
        }
        let settings = random_settings(&mut random);
        let mut decoder = RelayBp::new(graph.clone(), settings).unwrap();
        let record = decoder.decode(&syndrome, random.shot()).unwrap();
        Filed {
            graph,
            syndrome,
            record,
        }
    };
    (0..count).map(one).collect()
}

/// Decodes of some kind, enough of them.
fn some(seed: u64, is_of_kind: impl Fn(&Filed) -> bool) -> Vec<Filed> {
    let mut list = decodes(seed, 4000);
    list.retain(is_of_kind);
    assert!(list.len() >= 40, "{} of this kind", list.len());
    list
}

fn converged(seed: u64) -> Vec<Filed> {
    some(seed, |filed| filed.record.converged)
}

fn not_converged(seed: u64) -> Vec<Filed> {
    some(seed, |filed| !filed.record.converged)
}

/// Two of the converged legs have different corrections.
fn of_two_minds(seed: u64) -> Vec<Filed> {
    some(seed, |filed| {
        let found = filed.found();
        found.iter().any(|leg| leg.2 != found[0].2)
    })
}

#[test]
fn every_decode_holds() {
    let list = decodes(1, 20_000);
    for filed in &list {
        assert_eq!(filed.audit(), Ok(()), "{filed:?}");
    }
    let count = |holds: &dyn Fn(&Filed) -> bool| list.iter().filter(|f| holds(f)).count();
    let ties = |filed: &Filed| {
        let said = filed.record.weight;
        let found = filed.found();
        let mut rows = found.iter().filter(|leg| Some(leg.1) == said);
        rows.any(|leg| leg.2 != filed.record.correction)
    };
    let zero = |filed: &Filed, bits| filed.record.weight.map(f64::to_bits) == Some(bits);
    let kinds = [
        ("converged", count(&|f| f.record.converged)),
        ("not converged", count(&|f| !f.record.converged)),
        ("three converged legs", count(&|f| f.found().len() >= 3)),
        (
            "a later leg is best",
            count(&|f| f.record.converged && f.best() > f.found()[0].0),
        ),
        (
            "different corrections of the same weight",
            count(&|f| f.record.converged && ties(f)),
        ),
        ("weight 0.0", count(&|f| zero(f, 0))),
        ("weight -0.0", count(&|f| zero(f, 1 << 63))),
        (
            "a negative weight",
            count(&|f| f.record.weight < Some(0.0) && f.record.converged),
        ),
        (
            "legs not executed",
            count(&|f| f.record.legs.contains(&NotExecuted)),
        ),
    ];
    for (name, count) in kinds {
        assert!(count >= 50, "{name}: {count}");
    }
}

// ---- line 1

#[test]
fn converged_flag_turned() {
    for filed in converged(2) {
        let leg = filed.found()[0].0;
        let told = filed.told(|record| record.converged = false);
        assert_eq!(told, Some(Broken::LegConverged { leg }));
    }
    for filed in not_converged(3) {
        let told = filed.told(|record| record.converged = true);
        assert_eq!(told, Some(Broken::NoLegConverged));
    }
}

// ---- line 2

#[test]
fn another_legs_correction() {
    for filed in of_two_minds(4) {
        let leg = filed.best();
        for (_, _, row) in filed.found() {
            let told = filed.told(|record| record.correction = row.to_vec());
            let wanted = Broken::OtherCorrection { leg };
            assert_eq!(told, (row != filed.record.correction).then_some(wanted));
        }
    }
}

/// A leg taken whole, with its weight and its correction, that is not the best.
#[test]
fn another_leg() {
    let mut ties = 0;
    for filed in of_two_minds(5) {
        let best = filed.best();
        for (_, weight, row) in filed.found() {
            let told = filed.told(|record| {
                record.weight = Some(weight);
                record.correction = row.to_vec();
            });
            if weight == filed.record.weight.unwrap() {
                // A later leg of equal weight, or of the same bits.
                let wanted = Broken::OtherCorrection { leg: best };
                assert_eq!(told, (row != filed.record.correction).then_some(wanted));
                ties += u32::from(told.is_some());
            } else {
                // The best leg weighs less; a leg before it may do so, or be the first of that weight.
                let told = told.unwrap();
                assert_eq!(told.line(), 2);
                assert!(told.leg() <= Some(best));
                let lighter = filed.lighter(weight).unwrap();
                match told {
                    Broken::LegLighter { leg } => assert_eq!(leg, lighter),
                    Broken::OtherCorrection { leg } => assert!(leg < lighter),
                    _ => panic!("{told:?}"),
                }
            }
        }
    }
    assert!(ties > 40, "{ties}");
}

#[test]
fn another_weight_in_the_answer() {
    for filed in converged(6) {
        let said = filed.record.weight.unwrap();
        let told = |weight| filed.told(|record| record.weight = weight);
        let leg = filed.lighter(said.next_up()).unwrap();
        assert_eq!(told(Some(said.next_up())), Some(Broken::LegLighter { leg }));
        assert_eq!(told(Some(said.next_down())), Some(Broken::WeightOfNoLeg));
        assert_eq!(told(None), Some(Broken::WeightMissing));
        for weight in [f64::NAN, f64::INFINITY, f64::NEG_INFINITY] {
            assert_eq!(told(Some(weight)), Some(Broken::WeightNotFinite));
        }
    }
}

fn set_weight(record: &mut RelayOutcome, leg: usize, new: f64) {
    match &mut record.legs[leg] {
        Converged { weight, .. } => *weight = new,
        other => unreachable!("{other:?}"),
    }
}

#[test]
fn another_weight_in_the_best_leg() {
    // Without another leg of the best one's weight, which would be the answer's then.
    let alone = some(7, |filed| {
        let said = filed.record.weight;
        let found = filed.found();
        found.iter().filter(|leg| Some(leg.1) == said).count() == 1
    });
    for filed in alone {
        let (leg, said) = (filed.best(), filed.record.weight.unwrap());
        let told = |weight| filed.told(|record| set_weight(record, leg, weight));
        assert_eq!(told(said.next_up()), Some(Broken::WeightOfNoLeg));
        assert_eq!(told(said.next_down()), Some(Broken::LegLighter { leg }));
        for weight in [f64::NAN, f64::INFINITY, f64::NEG_INFINITY] {
            assert_eq!(told(weight), Some(Broken::LegWeightNotFinite { leg }));
        }
    }
}

#[test]
fn another_weight_in_another_leg() {
    for filed in of_two_minds(8) {
        let said = filed.record.weight.unwrap();
        for (leg, weight, _) in filed.found() {
            if leg == filed.best() {
                continue;
            }
            let told = |weight| filed.told(|record| set_weight(record, leg, weight));
            // Line 2 has nothing against it, and its own correction has.
            assert_eq!(told(weight.next_up()), Some(Broken::OtherSum { leg }));
            assert_eq!(told(said.next_down()), Some(Broken::LegLighter { leg }));
            assert_eq!(told(f64::NAN), Some(Broken::LegWeightNotFinite { leg }));
            let infinite = Some(Broken::LegWeightNotFinite { leg });
            assert_eq!(told(f64::INFINITY), infinite);
        }
    }
}

/// An earlier leg that says the best one's weight would be the answer.
#[test]
fn the_best_weight_in_an_earlier_leg() {
    let later = some(9, |filed| {
        filed.record.converged && filed.best() > filed.found()[0].0
    });
    for filed in later {
        let (leg, _, row) = filed.found()[0];
        let said = filed.record.weight.unwrap();
        assert_ne!(row, filed.record.correction);
        let told = filed.told(|record| set_weight(record, leg, said));
        assert_eq!(told, Some(Broken::OtherCorrection { leg }));
    }
}

fn turn(record: &mut RelayOutcome, leg: usize, mechanism: usize) {
    match &mut record.legs[leg] {
        Converged { correction, .. } => correction[mechanism] ^= 1,
        other => unreachable!("{other:?}"),
    }
}

#[test]
fn a_bit_turned() {
    for filed in of_two_minds(10) {
        let (best, mechanism) = (filed.best(), filed.mechanism());
        let check = filed.graph.detectors(mechanism)[0] as usize;
        // In the correction, or in the best leg's: they differ.
        let wanted = Some(Broken::OtherCorrection { leg: best });
        let told = filed.told(|record| record.correction[mechanism] ^= 1);
        assert_eq!(told, wanted);
        let told = filed.told(|record| turn(record, best, mechanism));
        assert_eq!(told, wanted);
        // In both.
        let told = filed.told(|record| {
            record.correction[mechanism] ^= 1;
            turn(record, best, mechanism);
        });
        assert_eq!(told, Some(Broken::CorrectionFails { check }));
        // In another leg's.
        for (leg, ..) in filed.found() {
            let told = filed.told(|record| turn(record, leg, mechanism));
            if leg != best {
                assert_eq!(told, Some(Broken::RowFails { leg, check }));
            }
        }
    }
}

/// Turned in both, the bit of a mechanism without detectors shows in the weight alone.
#[test]
fn a_bit_that_no_check_hears() {
    let graph = BpGraph::from_sparse(1, &[(4.0, vec![0]), (2.0, vec![])]).unwrap();
    let mut decoder = RelayBp::new(graph.clone(), RelayConfig::default()).unwrap();
    let mut record = decoder.decode(&[1], 0).unwrap();
    assert_eq!(record.audit(&graph, &[1]), Ok(()));
    record.correction[1] ^= 1;
    turn(&mut record, 0, 1);
    let broken = record.audit(&graph, &[1]);
    assert_eq!(broken, Err(Broken::OtherSum { leg: 0 }));
}

#[test]
fn another_syndrome() {
    for mut filed in converged(11) {
        let check = filed.syndrome.len() - 1;
        filed.syndrome[check] ^= 1;
        assert_eq!(filed.audit(), Err(Broken::CorrectionFails { check }));
    }
}

// ---- line 3

fn parities(graph: &BpGraph, correction: &[u8]) -> Vec<u8> {
    let mut parities = vec![0; graph.check_count()];
    for (mechanism, bit) in correction.iter().enumerate() {
        for &check in graph.detectors(mechanism) {
            parities[check as usize] ^= bit;
        }
    }
    parities
}

#[test]
fn without_convergence() {
    for mut filed in not_converged(12) {
        for weight in [0.0, -0.0, 4.0, f64::NAN] {
            let told = filed.told(|record| record.weight = Some(weight));
            assert_eq!(told, Some(Broken::WeightUnfounded));
        }
        filed.syndrome = parities(&filed.graph, &filed.record.correction);
        assert_eq!(filed.audit(), Err(Broken::CorrectionSatisfies));
    }
}

// ---- line 4

#[test]
fn another_total() {
    for filed in decodes(13, 1000) {
        let total = filed.record.total_iterations;
        for other in [total - 1, total + 1, 0, usize::MAX] {
            let told = filed.told(|record| record.total_iterations = other);
            assert_eq!(told, Some(Broken::OtherTotal));
        }
    }
}

fn set_iterations(record: &mut RelayOutcome, leg: usize, new: usize) {
    match &mut record.legs[leg] {
        Converged { iterations, .. } | RanOut { iterations } => *iterations = new,
        NotExecuted => unreachable!(),
    }
}

#[test]
fn other_iterations() {
    for filed in decodes(14, 1000) {
        for leg in 0..filed.record.executed_legs {
            let iterations = filed.record.legs[leg].iterations();
            let told = |new| filed.told(|record| set_iterations(record, leg, new));
            assert_eq!(told(0), Some(Broken::LegNotRun { leg }));
            assert_eq!(told(iterations + 1), Some(Broken::OtherTotal));
            // As for one leg alone, a sum of others beyond all numbers.
            let told = filed.told(|record| {
                for leg in 0..record.executed_legs {
                    set_iterations(record, leg, usize::MAX);
                }
            });
            assert_eq!(told, Some(Broken::OtherTotal));
        }
    }
}

/// A total that the sum has modulo 2^64 is no sum.
#[test]
fn a_total_that_went_around() {
    let several = some(15, |filed| filed.record.executed_legs > 1);
    for filed in several {
        let told = filed.told(|record| {
            let all = record.total_iterations - record.legs[0].iterations();
            set_iterations(record, 0, usize::MAX);
            record.total_iterations = all - 1;
        });
        assert_eq!(told, Some(Broken::OtherTotal));
    }
}

#[test]
fn another_count_of_legs() {
    for filed in decodes(16, 1000) {
        let executed = filed.record.executed_legs;
        let told = |count| filed.told(|record| record.executed_legs = count);
        let above = if executed < filed.record.legs.len() {
            Broken::LegNotRun { leg: executed }
        } else {
            Broken::LegsMissing
        };
        assert_eq!(told(executed + 1), Some(above));
        assert_eq!(told(usize::MAX), Some(Broken::LegsMissing));
        let none = if filed.record.converged {
            Broken::NoLegConverged
        } else {
            Broken::NothingExecuted
        };
        assert_eq!(told(0), Some(none));
        if executed > 1 {
            let found = filed.found();
            let below = match found.last() {
                Some(leg) if leg.0 == executed - 1 && found.len() == 1 => Broken::NoLegConverged,
                // The others weigh more, for the best leg is the first of its weight.
                Some(leg) if leg.0 == executed - 1 && leg.0 == filed.best() => {
                    Broken::WeightOfNoLeg
                }
                _ => Broken::OtherTotal,
            };
            assert_eq!(told(executed - 1), Some(below));
        }
    }
}

#[test]
fn an_executed_leg_marked_as_not() {
    let several = some(17, |filed| filed.record.executed_legs > 1);
    for filed in several {
        for leg in 0..filed.record.executed_legs {
            let is_found = filed.record.legs[leg].converged();
            if !is_found {
                let told = filed.told(|record| record.legs[leg] = NotExecuted);
                assert_eq!(told, Some(Broken::LegNotRun { leg }));
            }
        }
    }
}

// ---- line 5

#[test]
fn a_leg_beyond_the_last() {
    let stopped = some(18, |filed| filed.record.legs.contains(&NotExecuted));
    for filed in stopped {
        let found = filed.record.legs[filed.best()].clone();
        for leg in filed.record.executed_legs..filed.record.legs.len() {
            for other in [
                RanOut { iterations: 0 },
                RanOut { iterations: 3 },
                found.clone(),
            ] {
                let told = filed.told(|record| record.legs[leg] = other);
                assert_eq!(told, Some(Broken::LegUncounted { leg }));
            }
        }
    }
}

// ---- line 0

#[test]
fn what_does_not_fit() {
    for filed in of_two_minds(19) {
        let Filed {
            graph,
            syndrome,
            record,
        } = &filed;
        let (checks, mechanisms) = (graph.check_count(), graph.mechanism_count());
        for length in [0, checks - 1, checks + 1] {
            let other = vec![0; length];
            assert_eq!(record.audit(graph, &other), Err(Broken::SyndromeLength));
        }
        let mut other = syndrome.clone();
        other[checks - 1] |= 2;
        assert_eq!(record.audit(graph, &other), Err(Broken::SyndromeNotBinary));
        for length in [0, mechanisms - 1, mechanisms + 1] {
            let told = filed.told(|record| record.correction.resize(length, 0));
            assert_eq!(told, Some(Broken::CorrectionLength));
        }
        let told = filed.told(|record| record.correction[mechanisms - 1] |= 2);
        assert_eq!(told, Some(Broken::CorrectionNotBinary));
        // In each leg that has one, those beyond the last executed one too.
        let row = |length, byte| Converged {
            weight: 0.0,
            iterations: 1,
            correction: vec![byte; length],
        };
        for leg in 0..record.legs.len() {
            for length in [0, mechanisms - 1, mechanisms + 1] {
                let told = filed.told(|record| record.legs[leg] = row(length, 0));
                assert_eq!(told, Some(Broken::RowLength { leg }));
            }
            let told = filed.told(|record| record.legs[leg] = row(mechanisms, 2));
            assert_eq!(told, Some(Broken::RowNotBinary { leg }));
        }
    }
}

// ---- by hand

fn leg(weight: f64, correction: [u8; 3]) -> LegOutcome {
    Converged {
        weight,
        iterations: 1,
        correction: correction.to_vec(),
    }
}

/// What is told of a record over G, syndrome 1 and 0, with these priors.
fn by_hand(
    priors: [f64; 3],
    legs: &[LegOutcome],
    weight: f64,
    correction: [u8; 3],
) -> Result<(), Broken> {
    let mut priors = priors.into_iter();
    let graph = with_priors(&model_g(), || priors.next().unwrap());
    let record = RelayOutcome {
        converged: true,
        correction: correction.to_vec(),
        weight: Some(weight),
        posterior: vec![0.0; 3],
        legs: legs.to_vec(),
        executed_legs: legs.len(),
        total_iterations: legs.len(),
        stores: 0,
    };
    record.audit(&graph, &[1, 0])
}

/// G's two corrections for 1 and 0.
const FIRST: [u8; 3] = [1, 0, 0];
const OTHER: [u8; 3] = [0, 1, 1];

#[test]
fn ties_by_hand() {
    let priors = [4.0, 1.0, 3.0];
    let legs = [leg(4.0, FIRST), leg(4.0, OTHER)];
    assert_eq!(by_hand(priors, &legs, 4.0, FIRST), Ok(()));
    let told = Err(Broken::OtherCorrection { leg: 0 });
    assert_eq!(by_hand(priors, &legs, 4.0, OTHER), told);
    // A leg between that ran out changes nothing, and one that weighs more neither.
    let legs = [
        leg(4.0, FIRST),
        RanOut { iterations: 1 },
        leg(4.0, OTHER),
        leg(4.0, FIRST),
    ];
    assert_eq!(by_hand(priors, &legs, 4.0, FIRST), Ok(()));
    let told = Err(Broken::OtherCorrection { leg: 0 });
    assert_eq!(by_hand(priors, &legs, 4.0, OTHER), told);
    let priors = [5.0, 1.0, 3.0];
    let legs = [leg(5.0, FIRST), leg(4.0, OTHER), leg(4.0, OTHER)];
    assert_eq!(by_hand(priors, &legs, 4.0, OTHER), Ok(()));
    let told = Err(Broken::LegLighter { leg: 1 });
    assert_eq!(by_hand(priors, &legs, 5.0, FIRST), told);
}

/// Two zeroes are one weight, of which the earlier leg is the best, and the answer's zero is of its sign.
#[test]
fn zeroes_by_hand() {
    // OTHER weighs 1.0 - 1.0, which is 0.0. So does FIRST, where a bit that is not set counts, as 0.0 times its prior.
    let priors = [-0.0, 1.0, -1.0];
    let legs = [leg(0.0, OTHER), leg(0.0, FIRST)];
    assert_eq!(by_hand(priors, &legs, 0.0, OTHER), Ok(()));
    let told = Err(Broken::OtherZero { leg: 0 });
    assert_eq!(by_hand(priors, &legs, -0.0, OTHER), told);
    let told = Err(Broken::OtherCorrection { leg: 0 });
    assert_eq!(by_hand(priors, &legs, 0.0, FIRST), told);
    let legs = [leg(0.0, OTHER), leg(-0.0, FIRST)];
    let told = Err(Broken::OtherSum { leg: 1 });
    assert_eq!(by_hand(priors, &legs, 0.0, OTHER), told);

    // A weight is -0.0 only where every prior has a negative sign, and then no other leg's is 0.0.
    let priors = [-0.0; 3];
    let legs = [leg(-0.0, FIRST), leg(-0.0, OTHER)];
    assert_eq!(by_hand(priors, &legs, -0.0, FIRST), Ok(()));
    let told = Err(Broken::OtherZero { leg: 0 });
    assert_eq!(by_hand(priors, &legs, 0.0, FIRST), told);
    let legs = [leg(-0.0, FIRST), leg(0.0, OTHER)];
    let told = Err(Broken::OtherSum { leg: 1 });
    assert_eq!(by_hand(priors, &legs, -0.0, FIRST), told);
}

#[test]
fn the_sum_is_in_index_order() {
    // 0.1 + 0.2 + 0.3 is not 0.3 + 0.2 + 0.1.
    let graph = BpGraph::from_sparse(1, &[(0.1, vec![0]), (0.2, vec![0]), (0.3, vec![0])]).unwrap();
    let record = |weight: f64| RelayOutcome {
        converged: true,
        correction: vec![1; 3],
        weight: Some(weight),
        posterior: vec![],
        legs: vec![leg(weight, [1; 3])],
        executed_legs: 1,
        total_iterations: 1,
        stores: 0,
    };
    let (up, down) = (0.1 + 0.2 + 0.3, 0.3 + 0.2 + 0.1);
    assert_ne!(up, down);
    assert_eq!(record(up).audit(&graph, &[1]), Ok(()));
    let told = Err(Broken::OtherSum { leg: 0 });
    assert_eq!(record(down).audit(&graph, &[1]), told);
}

/// Nothing at all: no check, no mechanism, and a weight of no term.
#[test]
fn nothing_in_the_graph() {
    let graph = BpGraph::from_sparse::<[u32; 0]>(0, &[]).unwrap();
    let mut decoder = RelayBp::new(graph.clone(), RelayConfig::default()).unwrap();
    let mut record = decoder.decode(&[], 0).unwrap();
    assert_eq!(record.audit(&graph, &[]), Ok(()));
    record.weight = Some(0.0);
    let told = Err(Broken::OtherZero { leg: 0 });
    assert_eq!(record.audit(&graph, &[]), told);
    record.converged = false;
    record.weight = None;
    record.legs[0] = RanOut { iterations: 1 };
    // Without checks none can fail.
    let told = Err(Broken::CorrectionSatisfies);
    assert_eq!(record.audit(&graph, &[]), told);
}

// ---- what no reader can tell

/// A converged leg that is not the best may have run out, for all that the rest of the record says.
#[test]
fn no_reader_can_tell_that_a_leg_converged() {
    for filed in of_two_minds(20) {
        for (leg, ..) in filed.found() {
            let iterations = filed.record.legs[leg].iterations();
            let told = filed.told(|record| record.legs[leg] = RanOut { iterations });
            if leg != filed.best() {
                assert_eq!(told, None);
            }
        }
    }
}

/// Bits that fail a check may be the last hard decision.
#[test]
fn no_reader_can_tell_the_bits_of_a_failure() {
    let mut turned = 0;
    for filed in not_converged(21) {
        for mechanism in 0..filed.graph.mechanism_count() {
            let mut correction = filed.record.correction.clone();
            correction[mechanism] ^= 1;
            let still_fails = parities(&filed.graph, &correction) != filed.syndrome;
            turned += u32::from(still_fails);
            let told = filed.told(|record| record.correction = correction);
            let wanted = Some(Broken::CorrectionSatisfies);
            assert_eq!(told, if still_fails { None } else { wanted });
        }
    }
    assert!(turned > 1000, "{turned}");
}

/// A leg that ran out may have come to another leg's correction, unless that makes it the answer: it does where it stands before
/// the best one and weighs as much. With the best one's correction the record says so of another leg, and holds all the same.
#[test]
fn no_reader_can_tell_that_a_leg_ran_out() {
    let with_both = some(24, |filed| {
        let legs = &filed.record.legs[..filed.record.executed_legs];
        filed.record.converged && legs.iter().any(|leg| !leg.converged())
    });
    let mut ties = [0; 2];
    for filed in with_both {
        let (best, said) = (filed.best(), filed.record.weight.unwrap());
        for leg in 0..filed.record.executed_legs {
            let iterations = filed.record.legs[leg].iterations();
            if filed.record.legs[leg].converged() {
                continue;
            }
            for (_, weight, row) in filed.found() {
                let told = filed.told(|record| {
                    record.legs[leg] = Converged {
                        weight,
                        iterations,
                        correction: row.to_vec(),
                    }
                });
                let is_answer = leg < best && weight == said;
                let is_other = is_answer && row != filed.record.correction;
                assert_eq!(told, is_other.then_some(Broken::OtherCorrection { leg }));
                ties[usize::from(is_other)] += u32::from(weight == said);
            }
        }
    }
    assert!(ties.iter().all(|&count| count > 40), "{ties:?}");
}

/// The total is known, and not whose its iterations are; and neither the posterior nor the stores are looked at.
#[test]
fn no_reader_can_tell_whose_iterations() {
    let several = some(22, |filed| {
        filed.record.executed_legs > 1 && filed.record.legs[0].iterations() > 1
    });
    for filed in several {
        let [one, other] = [0, 1].map(|leg| filed.record.legs[leg].iterations());
        let told = filed.told(|record| {
            set_iterations(record, 0, one - 1);
            set_iterations(record, 1, other + 1);
            record.posterior.clear();
            record.stores += 1;
        });
        assert_eq!(told, None);
    }
}

// ---- any record

/// The first line that does not hold, as the lines read.
fn plainly(graph: &BpGraph, syndrome: &[u8], record: &RelayOutcome) -> Option<u8> {
    let are_bits = |bytes: &[u8], length| bytes.len() == length && bytes.iter().all(|b| *b < 2);
    let mechanisms = graph.mechanism_count();
    let mut rows = record.legs.iter().filter_map(LegOutcome::correction);
    let fits = are_bits(syndrome, graph.check_count())
        && are_bits(&record.correction, mechanisms)
        && rows.all(|row| are_bits(row, mechanisms))
        && record.executed_legs <= record.legs.len();
    if !fits {
        return Some(0);
    }
    let satisfies = |correction: &[u8]| parities(graph, correction) == syndrome;
    let weight_of = |correction: &[u8]| {
        let mut weight = -0.0;
        for (mechanism, prior) in graph.prior_llrs().iter().enumerate() {
            weight += f64::from(correction[mechanism]) * prior;
        }
        weight
    };
    let (executed, rest) = record.legs.split_at(record.executed_legs);
    let found: Vec<(usize, f64, &[u8])> = executed
        .iter()
        .enumerate()
        .filter_map(|(leg, record)| Some((leg, record.weight()?, record.correction()?)))
        .collect();
    let is_best = |said: f64, &(leg, weight, row): &(usize, f64, &[u8])| {
        let mut all = found.iter();
        record.correction == row
            && said.to_bits() == weight.to_bits()
            && all.all(|other| said <= other.1 && (other.0 >= leg || said < other.1))
    };
    let best = |said: f64| found.iter().any(|leg| is_best(said, leg));
    let sum: u128 = executed.iter().map(|leg| leg.iterations() as u128).sum();
    let lines = [
        record.converged != found.is_empty(),
        !record.converged
            || record.weight.is_some_and(best)
                && found.iter().all(|leg| leg.1.is_finite())
                && satisfies(&record.correction),
        record.converged || record.weight.is_none() && !satisfies(&record.correction),
        sum == record.total_iterations as u128
            && executed.iter().all(|leg| leg.iterations() > 0)
            && !executed.is_empty(),
        found.iter().all(|leg| {
            satisfies(leg.2) && weight_of(leg.2).to_bits() == leg.1.to_bits() && leg.1.is_finite()
        }) && rest.iter().all(|leg| *leg == NotExecuted),
    ];
    let broken = lines.iter().position(|holds| !holds);
    broken.map(|line| 1 + line as u8)
}

const WEIGHTS: [f64; 9] = [
    0.0,
    -0.0,
    1.0,
    -1.0,
    2.0,
    f64::NAN,
    f64::INFINITY,
    f64::NEG_INFINITY,
    5e-324,
];

/// One thing in a record made another, whatever comes of it.
fn spoil(random: &mut Random, record: &mut RelayOutcome) {
    let legs = record.legs.len();
    let leg = random.below(legs.max(1));
    let count = [0, 1, 2, 3, legs, usize::MAX, usize::MAX - 1][random.below(7)];
    let weight = WEIGHTS[random.below(WEIGHTS.len())];
    let byte = [0, 0, 1, 1, 2, 255][random.below(6)];
    let place = random.below(5);
    let put = |bytes: &mut Vec<u8>| match bytes.get_mut(place) {
        Some(at) => *at = byte,
        None => bytes.push(byte),
    };
    match random.below(10) {
        0 => record.converged ^= true,
        1 => record.weight = Some(weight),
        2 => record.weight = None,
        3 => record.executed_legs = count,
        4 => record.total_iterations = count,
        5 => put(&mut record.correction),
        6 if legs > 0 => record.legs[leg] = NotExecuted,
        7 if legs > 0 => record.legs[leg] = RanOut { iterations: count },
        8 => {
            record.legs.pop();
        }
        _ if legs > 0 => {
            let (said, other) = (record.weight, record.correction.clone());
            match &mut record.legs[leg] {
                Converged {
                    weight: one,
                    iterations,
                    correction,
                } => match random.below(5) {
                    0 => *one = weight,
                    1 => *one = said.unwrap_or(weight),
                    2 => *iterations = count,
                    3 => *correction = other,
                    _ => put(correction),
                },
                one => {
                    *one = Converged {
                        weight,
                        iterations: count,
                        correction: other,
                    }
                }
            }
        }
        _ => {}
    }
}

/// A record that holds over a small graph, made up and not decoded, whose legs often tie.
fn made_up(random: &mut Random) -> Filed {
    let priors = [0.0, -0.0, 1.0, -1.0];
    let mut prior = || priors[random.below(priors.len())];
    let model = [
        (prior(), vec![0]),
        (prior(), vec![0, 1]),
        (prior(), vec![1]),
        (prior(), vec![]),
    ];
    let graph = BpGraph::from_sparse(2, &model).unwrap();
    let syndrome: Vec<u8> = (0..2).map(|_| random.below(2) as u8).collect();
    let bits = |number: usize| (0..4).map(|bit| (number >> bit & 1) as u8).collect();
    let all: Vec<Vec<u8>> = (0..16).map(bits).collect();
    let (good, bad): (Vec<_>, Vec<_>) = all
        .into_iter()
        .partition(|row| parities(&graph, row) == syndrome);
    let mut record = RelayOutcome {
        converged: false,
        correction: bad[random.below(bad.len())].clone(),
        weight: None,
        posterior: vec![],
        legs: vec![],
        executed_legs: 1 + random.below(4),
        total_iterations: 0,
        stores: 0,
    };
    for _ in 0..record.executed_legs {
        let iterations = 1 + random.below(3);
        record.total_iterations += iterations;
        let correction = good[random.below(good.len())].clone();
        let terms = correction.iter().zip(graph.prior_llrs());
        let weight = terms.fold(-0.0, |sum, (&bit, prior)| sum + f64::from(bit) * prior);
        let ran_out = random.below(3) == 0;
        record.legs.push(if ran_out {
            RanOut { iterations }
        } else {
            if record.weight.is_none_or(|best| weight < best) {
                record.converged = true;
                record.weight = Some(weight);
                record.correction.clone_from(&correction);
            }
            Converged {
                weight,
                iterations,
                correction,
            }
        });
    }
    let rest = random.below(3);
    record.legs.extend(vec![NotExecuted; rest]);
    Filed {
        graph,
        syndrome,
        record,
    }
}

#[test]
fn any_record_is_answered_as_the_lines_read() {
    let mut random = Random::new(23);
    let (mut holds, mut broken) = (0, [0; 6]);
    for _ in 0..100_000 {
        let mut filed = made_up(&mut random);
        assert_eq!(filed.audit(), Ok(()), "{filed:?}");
        for _ in 0..1 + random.below(3) {
            spoil(&mut random, &mut filed.record);
        }
        let told = filed.audit();
        let wanted = plainly(&filed.graph, &filed.syndrome, &filed.record);
        assert_eq!(told.err().map(|b| b.line()), wanted, "{told:?}, {filed:?}");
        match told {
            Ok(()) => holds += 1,
            Err(told) => {
                broken[usize::from(told.line())] += 1;
                let legs = filed.record.legs.len();
                assert!(told.leg().is_none_or(|leg| leg < legs), "{told:?}");
            }
        }
    }
    assert!(holds > 1000, "{holds}");
    assert!(broken.iter().all(|&count| count > 1000), "{broken:?}");
}

#[test]
fn what_is_said() {
    for (broken, said) in [
        (
            Broken::LegsMissing,
            "does not fit: more legs were executed than there are",
        ),
        (
            Broken::RowLength { leg: 2 },
            "does not fit, at leg 2: the leg's correction has not a byte for each mechanism",
        ),
        (
            Broken::LegConverged { leg: 7 },
            "line 1 does not hold, at leg 7: not converged, and the leg is",
        ),
        (
            Broken::CorrectionFails { check: 4 },
            "line 2 does not hold: the correction fails check 4",
        ),
        (
            Broken::OtherTotal,
            "line 4 does not hold: the total is not the sum of the legs' iterations",
        ),
    ] {
        assert_eq!(broken.to_string(), said);
        let error: &dyn std::error::Error = &broken;
        assert!(error.source().is_none());
    }
}
