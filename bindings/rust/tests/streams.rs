//! Record streams: the repository's examples in pieces of every kind, a cut stream, what comes after a refusal, the draw that each kind of
//! settings means, and the clip, which no stream says.

use chowderkite::Shots;
use chowderkite_sys::streams::{self, LINE, MAX_PAYLOAD};
use std::fs;
use std::path::{Path, PathBuf};

fn examples() -> PathBuf {
    Path::new(env!("CARGO_MANIFEST_DIR")).join("../../examples")
}

fn example(name: &str) -> Vec<u8> {
    fs::read(examples().join(name)).unwrap()
}

/// All that is said of a stream that comes in pieces of these lengths, again and again.
fn said(stream: &[u8], lengths: &[usize]) -> Vec<u8> {
    let mut shots = Shots::new();
    let mut text = Vec::new();
    let (mut left, mut lengths) = (stream, lengths.iter().cycle());
    while !left.is_empty() {
        let length = *lengths.next().unwrap();
        let (piece, rest) = left.split_at(length.min(left.len()));
        text.extend(shots.feed(piece));
        left = rest;
    }
    text.extend(shots.finish());
    text
}

#[test]
fn examples_in_pieces() {
    for name in ["g", "refused", "by_shot", "repetition", "surface"] {
        let stream = example(&format!("{name}.stream"));
        let wanted = example(&format!("{name}.out"));
        for lengths in [&[usize::MAX][..], &[1], &[7, 1, 100, 3]] {
            assert_eq!(
                said(&stream, lengths),
                wanted,
                "{name} in pieces of {lengths:?}"
            );
        }
    }
}

#[test]
fn a_cut_stream_is_40_at_its_last_record() {
    let stream = example("g.stream");
    // Its shot is the last record, of 16 bytes.
    let shot = stream.len() - 16;
    for length in shot + 1..stream.len() {
        let text = String::from_utf8(said(&stream[..length], &[usize::MAX])).unwrap();
        assert_eq!(text, format!("stopped 40 {shot}\n"));
    }
}

#[test]
fn nothing_is_said_after_a_refusal() {
    let mut shots = Shots::new();
    assert_eq!(shots.feed(&[0, 0, 0, 0, 9, 0]), b"stopped 41 0\n");
    assert_eq!(shots.feed(&example("g.stream")), b"");
    assert_eq!(shots.finish(), b"");
}

/// The settings of G's stream as kind 4, and back as kind 2: a session's own word says the draw, and 27 comes of the one alone.
#[test]
fn kinds_of_settings() {
    const SOURCE: usize = 19;
    let stream = example("g.stream");
    let (model, settings) = (&stream[..70], &stream[70..125]);
    let of_kind = |kind: u8| {
        let mut record = settings.to_vec();
        record[4] = kind;
        record
    };
    let shot = |seed: u64| {
        let mut record = stream[125..].to_vec();
        record[6..14].copy_from_slice(&seed.to_le_bytes());
        record
    };
    let mut session = streams::session_new();
    let (mut payload, mut kept, mut line) = (vec![0; MAX_PAYLOAD], vec![0; MAX_PAYLOAD], [0; LINE]);
    let mut feed = |session: &mut streams::Session, bytes: &[u8]| {
        let mut text = Vec::new();
        for &byte in bytes {
            streams::take(session, byte, &mut payload, &mut kept, &mut line);
            text.extend_from_slice(&line[..session.said()]);
        }
        String::from_utf8(text).unwrap()
    };
    feed(&mut session, model);
    let mut number = 0;
    for (kind, source, at_limit) in [
        (2, 2, "1 2 1 100"),
        (4, 0, "refused 27"),
        (2, 2, "1 2 1 100"),
        (4, 0, "refused 27"),
    ] {
        assert_eq!(feed(&mut session, &of_kind(kind)), "");
        assert_eq!(session.words[SOURCE], source);
        for (seed, said) in [((1 << 48) - 1, "1 2 1 100"), (1 << 48, at_limit)] {
            let line = feed(&mut session, &shot(seed));
            assert_eq!(line, format!("shot {number} {said}\n"));
            number += 1;
        }
    }
    let offset = model.len() + 4 * (settings.len() + 2 * 16);
    let line = feed(&mut session, &of_kind(5));
    assert_eq!(line, format!("stopped 41 {offset}\n"));
}

/// Settings of a stream mean that the clip is off. A session's own words can have it on, and then it acts, until other settings come.
#[test]
fn a_clip_of_a_session() {
    const CLIP_ON: usize = 21;
    const CLIP: usize = 4;
    // A model of 70 bytes, settings of 55 and a shot of 16.
    let stream = example("g.stream");
    let (settings, shot) = (&stream[70..125], &stream[125..]);
    let mut session = streams::session_new();
    let (mut payload, mut model, mut line) =
        (vec![0; MAX_PAYLOAD], vec![0; MAX_PAYLOAD], [0; LINE]);
    let mut feed = |session: &mut streams::Session, bytes: &[u8]| {
        let mut text = Vec::new();
        for &byte in bytes {
            streams::take(session, byte, &mut payload, &mut model, &mut line);
            text.extend_from_slice(&line[..session.said()]);
        }
        String::from_utf8(text).unwrap()
    };
    let is_off = |session: &streams::Session| {
        (session.words[CLIP_ON], session.floats[CLIP].to_bits()) == (0, 0)
    };
    assert!(is_off(&session));
    feed(&mut session, &stream[..125]);
    assert!(is_off(&session));
    assert_eq!(feed(&mut session, shot), "shot 0 1 2 1 100\n");
    for (number, on, clip, said) in [
        (1, 1, 8.0, "1 2 1 100"),
        (2, 1, 3.0, "0 2 1 000"),
        (3, 7, 3.0, "0 2 1 000"),
        (4, 0, 3.0, "1 2 1 100"),
    ] {
        (session.words[CLIP_ON], session.floats[CLIP]) = (on, clip);
        let line = feed(&mut session, shot);
        assert_eq!(line, format!("shot {number} {said}\n"));
    }
    (session.words[CLIP_ON], session.floats[CLIP]) = (1, 3.0);
    feed(&mut session, settings);
    assert!(is_off(&session));
    assert_eq!(feed(&mut session, shot), "shot 5 1 2 1 100\n");
}
