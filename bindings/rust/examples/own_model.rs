//! A model of one's own: the repetition code of 9 qubits, decoded for some random shots.
//!
//! To adapt it, replace `repetition_code`: how many checks there are, and for each mechanism its probability and the checks that
//! it sets off.

use chowderkite::{BpGraph, Error, RelayBp, RelayConfig};

const QUBITS: usize = 9;
const FLIP: f64 = 0.08;
const SHOTS: u64 = 12;

/// Check `c` compares the qubits `c` and `c + 1`. A mechanism is the flip of one qubit.
fn repetition_code() -> Result<BpGraph, Error> {
    let checks = QUBITS - 1;
    let mechanisms: Vec<(f64, Vec<u32>)> = (0..QUBITS)
        .map(|qubit| {
            let touched = [qubit.checked_sub(1), Some(qubit)];
            let inside = touched
                .into_iter()
                .flatten()
                .filter(|&check| check < checks);
            (FLIP, inside.map(|check| check as u32).collect())
        })
        .collect();
    BpGraph::from_probabilities(checks, &mechanisms)
}

/// The checks that an odd number of these mechanisms sets off.
fn syndrome_of(graph: &BpGraph, happened: &[u8]) -> Vec<u8> {
    let mut syndrome = vec![0; graph.check_count()];
    for (mechanism, &bit) in happened.iter().enumerate() {
        for &check in graph.detectors(mechanism) {
            syndrome[check as usize] ^= bit;
        }
    }
    syndrome
}

/// Flips for a shot, by a small generator (xorshift64). An experiment has a syndrome instead.
fn flips(state: &mut u64) -> Vec<u8> {
    let mut flip = || {
        *state ^= *state << 13;
        *state ^= *state >> 7;
        *state ^= *state << 17;
        let unit = (*state >> 11) as f64 / (1_u64 << 53) as f64;
        u8::from(unit < FLIP)
    };
    (0..QUBITS).map(|_| flip()).collect()
}

fn shown(bits: &[u8]) -> String {
    bits.iter()
        .map(|&bit| if bit == 1 { '1' } else { '0' })
        .collect()
}

fn main() -> Result<(), Error> {
    let graph = repetition_code()?;
    let mut decoder = RelayBp::new(graph.clone(), RelayConfig::default())?;
    let mut state = 0x9E37_79B9;
    let (mut converged, mut right) = (0, 0);
    for shot in 0..SHOTS {
        let happened = flips(&mut state);
        let syndrome = syndrome_of(&graph, &happened);

        // The shot's number is its seed. With the model and the settings it makes the outcome repeatable, bit for bit.
        let outcome = decoder.decode(&syndrome, shot)?;

        // Whoever has filed it can hold it, with its model and syndrome, to what is proved of every decode.
        assert_eq!(outcome.audit(&graph, &syndrome), Ok(()));

        if outcome.converged {
            converged += 1;
            assert_eq!(syndrome_of(&graph, &outcome.correction), syndrome);
        }
        // A correction with the right syndrome is right on every qubit, or wrong on every one.
        let is_right = outcome.correction == happened;
        right += u64::from(is_right);
        let found = match outcome.weight {
            Some(weight) => format!("weight {weight:.3}"),
            None => String::from("not converged"),
        };
        println!(
            "shot {shot}: syndrome {}, correction {}, {found}, iterations {}, messages written {}, {}",
            shown(&syndrome),
            shown(&outcome.correction),
            outcome.total_iterations,
            outcome.stores,
            if is_right { "right" } else { "wrong" },
        );
    }
    println!("{converged} of {SHOTS} converged, {right} right");
    Ok(())
}
