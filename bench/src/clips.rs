//! Decodes with a clip beside the same decodes without, both of the proved code. Their syndromes are drawn, so that every leg runs out, and
//! both have as many iterations.

use crate::decodes::{LEGS, sets, settings};
use crate::models::{EDGES, Sized, sized};
use crate::timing::{Row, Work, timed};
use oracle::bits::bits;
use proved::{Clip, Decode, Iteration, Lists, Settings, Shot, Step};
use std::hint::black_box;
use std::time::Duration;

/// What the clip does.
#[derive(Clone, Copy)]
enum Acts {
    /// It is beyond every message.
    Never,
    /// It is within about half of the messages.
    Often,
    /// It is within all of them.
    Always,
}

pub fn run() -> Vec<Row> {
    let mut rows = Vec::new();
    for acts in [Acts::Never, Acts::Often, Acts::Always] {
        for serial in [false, true] {
            rows.extend(EDGES.into_iter().map(|edges| decodes(edges, serial, acts)));
        }
    }
    rows
}

/// The magnitudes of the checks' messages after five iterations from the start of a leg.
fn messages(sized: &Sized, lists: &Lists, settings: Settings, syndrome: &[u8]) -> Vec<f64> {
    let mechanism = lists.check_var.iter();
    let mut step = Step {
        c_to_v: vec![0.0; sized.size.edges],
        v_to_c: mechanism.map(|&m| sized.priors[m as usize]).collect(),
        posterior: sized.priors.clone(),
        bias: vec![0.0; sized.size.mechanisms],
    };
    let asked = Iteration {
        serial: settings.serial,
        alpha: settings.alpha,
        clip: settings.clip,
        gamma: &vec![settings.gamma0; sized.size.mechanisms],
        syndrome,
        order: &sized.index_order(),
    };
    for _ in 0..5 {
        let answer = proved::iteration(sized.size, &sized.priors, lists, asked, &mut step);
        assert_eq!(answer, Ok(()));
    }
    step.c_to_v.iter().map(|message| message.abs()).collect()
}

/// A clip that does as much.
fn clip(acts: Acts, sized: &Sized, lists: &Lists, off: Settings, syndrome: &[u8]) -> f64 {
    // The part of the messages that are at a clip after five iterations with it.
    let share = |clip: f64| {
        let on = Settings {
            clip: Clip::of(Some(clip)),
            ..off
        };
        let sent = messages(sized, lists, on, syndrome);
        let at = sent.iter().filter(|&&message| message == clip).count();
        at as f64 / sent.len() as f64
    };
    match acts {
        Acts::Never => {
            assert_eq!(share(1e300), 0.0);
            1e300
        }
        Acts::Always => {
            assert!(share(1e-3) > 0.99);
            1e-3
        }
        // The greater the clip, the fewer are at it.
        Acts::Often => {
            let (mut low, mut high) = (1e-3_f64, 1e6_f64);
            for _ in 0..20 {
                let middle = (low * high).sqrt();
                match share(middle) {
                    0.4..=0.6 => return middle,
                    ..0.4 => high = middle,
                    _ => low = middle,
                }
            }
            panic!("no clip is at half of the messages")
        }
    }
}

fn decodes(edges: usize, serial: bool, acts: Acts) -> Row {
    let sized = sized(edges);
    let lists = sized.lists();
    let syndromes = sized.drawn(sized.runs().div_ceil(4));
    let gammas = sets(sized.size.mechanisms).concat();
    let off = settings(serial);
    let clip = clip(acts, &sized, &lists, off, &syndromes[0]);
    let on = Settings {
        clip: Clip::of(Some(clip)),
        ..off
    };
    let decode = |settings: Settings, syndrome: &[u8], left: &mut Decode| {
        let shot = Shot {
            gammas: &gammas,
            syndrome,
            seed: 1,
            order: None,
        };
        let priors = black_box(&sized.priors);
        let answer = proved::decode(sized.size, priors, &lists, settings, shot, left);
        assert_eq!(answer, Ok(()));
    };
    let lists_of = || Decode::filled(sized.size, LEGS + 1, 0);
    let (mut with, mut without) = (lists_of(), lists_of());
    let mut total = 0;
    for syndrome in &syndromes {
        decode(on, syndrome, &mut with);
        decode(off, syndrome, &mut without);
        assert_eq!(with.counts, without.counts);
        assert_eq!(with.counts[0], 0);
        let same = bits(&with.posterior) == bits(&without.posterior);
        assert_eq!(same, matches!(acts, Acts::Never));
        total += with.counts[2];
    }
    let work = Work {
        call: "decode",
        way: match (serial, acts) {
            (false, Acts::Never) => "Flooding, clip never acts",
            (true, Acts::Never) => "CheckSerial, clip never acts",
            (false, Acts::Often) => "Flooding, clip often acts",
            (true, Acts::Often) => "CheckSerial, clip often acts",
            (false, Acts::Always) => "Flooding, clip always acts",
            (true, Acts::Always) => "CheckSerial, clip always acts",
        },
        edges,
        iterations: Some(total as f64 / syndromes.len() as f64),
        runs: syndromes.len(),
    };
    let turn = |settings: Settings, left: &mut Decode| -> Duration {
        timed(|| {
            for syndrome in &syndromes {
                decode(settings, syndrome, black_box(left));
            }
        })
    };
    work.beside(&mut || turn(off, &mut without), &mut || turn(on, &mut with))
}
