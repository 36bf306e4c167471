//! The copy that counts the messages which its iterations write, and clips those of checks where a case says so, and what runs a case on it. It
//! takes log ratios as the open copy does, whose graph it has, and its checks may come in an order.

pub use pecos_bp_open::counting as bp;

#[path = "drive.rs"]
pub mod drive;

use crate::answers::{Decoded, Refusal};
use crate::decode_cases::DecodeCase;
use bp::{BpGraph, RelayBp, RelayOutcome};
use pecos_decoder_core::errors::DecoderError;

/// A decode with the messages counted.
pub fn decode(case: &DecodeCase) -> Result<Decoded, Refusal> {
    let graph = drive::sparse_graph(&case.model).expect("decode cases have models that build");
    decode_over(graph, case)
}

/// The same over a graph that is handed in.
pub fn decode_over(graph: BpGraph, case: &DecodeCase) -> Result<Decoded, Refusal> {
    decode_by(graph, case, |decoder| {
        decoder.decode(&case.syndrome, case.seed)
    })
}

/// The same with its checks in an order, which must name each once.
pub fn decode_in_order(
    graph: BpGraph,
    case: &DecodeCase,
    order: &[u32],
) -> Result<Decoded, Refusal> {
    decode_by(graph, case, |decoder| {
        bp::decode_in_order(decoder, &case.syndrome, case.seed, order)
    })
}

/// 9 is ours, and is tested before the Rust's own tests of settings.
fn decode_by(
    graph: BpGraph,
    case: &DecodeCase,
    decode: impl FnOnce(&mut RelayBp) -> Result<RelayOutcome, DecoderError>,
) -> Result<Decoded, Refusal> {
    let clip = case.settings.clip;
    if !is_clip(clip) {
        return Err(Refusal { code: 9, place: 0 });
    }
    let (answer, stores) = bp::counted(|| {
        drive::decode_by(graph, case, |decoder| {
            bp::set_clip(decoder, clip);
            decode(decoder)
        })
    });
    let stores = Some(stores);
    answer.map(|outcome| Decoded { stores, ..outcome })
}

/// The line of a case, with this copy's answer.
pub fn decode_line(case: &DecodeCase) -> String {
    case.line(&drive::priors(&case.model.probabilities), &decode(case))
}

/// Whether a clip is off, or finite and above 0.
pub fn is_clip(clip: Option<f64>) -> bool {
    clip.is_none_or(|limit| limit > 0.0 && limit < f64::INFINITY)
}

/// How many messages one iteration writes by the reference's formula, which knows the detectors of each mechanism and runs nothing.
pub fn by_formula(serial: bool, detectors: &[Vec<u32>]) -> u128 {
    let degrees: Vec<usize> = detectors.iter().map(Vec::len).collect();
    by_degrees(serial, &degrees)
}

/// The same by the degree of each mechanism.
pub fn by_degrees(serial: bool, degrees: &[usize]) -> u128 {
    let each = |degree: u128| {
        if serial {
            degree + degree * degree
        } else {
            2 * degree
        }
    };
    degrees.iter().map(|&degree| each(degree as u128)).sum()
}

#[cfg(test)]
mod tests {
    use super::{by_degrees, by_formula, decode, decode_in_order, drive};
    use crate::decode_cases::{BAD_CLIPS, DecodeCase, Settings};
    use crate::exact;
    use crate::model::Model;

    fn case(serial: bool, pre_iterations: usize) -> DecodeCase {
        DecodeCase {
            model: Model::g(),
            settings: Settings::plain(serial, pre_iterations),
            syndrome: vec![1, 0],
            seed: 0,
        }
    }

    /// G has four edges, and mechanisms of degree 1, 2 and 1.
    #[test]
    fn of_g() {
        assert_eq!(by_formula(false, &Model::g().detectors), 8);
        assert_eq!(by_formula(true, &Model::g().detectors), 10);
        for (serial, iterations, stores) in
            [(false, 1, 8), (false, 2, 16), (true, 1, 10), (true, 2, 20)]
        {
            let case = case(serial, iterations);
            let outcome = decode(&case).expect("a finite posterior");
            assert_eq!((outcome.total, outcome.stores), (iterations, Some(stores)));
            let exact = exact::drive::decode(&case).expect("a finite posterior");
            assert_eq!(exact.stores, None);
            assert!(exact.is_same(&outcome));
        }
    }

    /// Legs add up, and what starts one is not counted.
    #[test]
    fn of_legs() {
        for serial in [false, true] {
            let mut case = case(serial, 1);
            case.model.probabilities = vec![0.5; 3];
            (case.settings.num_legs, case.settings.leg_iterations) = (3, 2);
            case.syndrome = vec![1, 1];
            let outcome = decode(&case).expect("a finite posterior");
            assert_eq!((outcome.legs.len(), outcome.total), (4, 7));
            let each = by_formula(serial, &case.model.detectors) as u64;
            assert_eq!(outcome.stores, Some(7 * each));
        }
    }

    /// The order of the reference's R6 and R7.
    #[test]
    fn in_an_order() {
        let graph = || drive::sparse_graph(&Model::g()).expect("G builds");
        let flooding = decode_in_order(graph(), &case(false, 2), &[1, 0]).expect("R7");
        assert_eq!((flooding.total, flooding.stores), (2, Some(16)));
        let serial = decode_in_order(graph(), &case(true, 2), &[1, 0]).expect("R6");
        assert_eq!((serial.total, serial.stores), (1, Some(10)));
        assert_eq!(serial.posterior, [-4.0, 4.0, 8.0]);
    }

    /// A clip on G: at the first messages, 4, it does nothing, and just below them it does.
    #[test]
    fn with_a_clip() {
        for serial in [false, true] {
            let off = decode(&case(serial, 1)).expect("a finite posterior");
            for (clip, same) in [(5.0, true), (4.0, true), (4.0_f64.next_down(), false)] {
                let mut case = case(serial, 1);
                case.settings.clip = Some(clip);
                let on = decode(&case).expect("a finite posterior");
                assert_eq!(on.is_same(&off), same);
                assert_eq!(on.stores, off.stores);
            }
        }
        // Check 0 sends -1 and -1, and check 1 sends 1 and 1.
        let mut case = case(false, 1);
        case.settings.clip = Some(1.0);
        let on = decode(&case).expect("a finite posterior");
        assert_eq!(on.posterior, [3.0, 4.0, 5.0]);
    }

    /// An infinite message is beyond every clip. A check of one entry sends 30, times alpha.
    #[test]
    fn of_one_entry() {
        for (alpha, clip, posterior) in [
            (1.0, None, -28.0),
            (1.0, Some(30.0), -28.0),
            (1.0, Some(5.0), -3.0),
            (f64::MAX, Some(5.0), -3.0),
        ] {
            let mut case = case(false, 1);
            case.model = Model::single(crate::model::probability_of(2.0));
            case.syndrome = vec![1];
            (case.settings.alpha, case.settings.clip) = (alpha, clip);
            let outcome = decode(&case).expect("a finite posterior");
            assert_eq!(outcome.posterior, [posterior]);
        }
    }

    #[test]
    fn a_bad_clip_is_9_before_10() {
        for clip in BAD_CLIPS {
            let mut case = case(false, 1);
            case.settings.clip = Some(clip);
            assert_eq!(decode(&case).expect_err("9").pair(), (9, 0));
            case.settings.alpha = -1.0;
            assert_eq!(decode(&case).expect_err("9").pair(), (9, 0));
            case.settings.clip = None;
            assert_eq!(decode(&case).expect_err("10").pair(), (10, 0));
        }
    }

    /// The limits of 29.
    #[test]
    fn of_hubs() {
        let most = 65_535 + 65_535 * 65_535;
        assert_eq!(most * by_degrees(true, &[65_536]), (1 << 64) - (1 << 32));
        assert!(most * by_degrees(true, &[65_536, 1]) >= 1 << 64);
        let each = by_degrees(true, &[65_536; 16]);
        assert!(268_431_360 * each < 1 << 64 && 268_431_361 * each >= 1 << 64);
    }
}
