//! Record streams: the exported session beside the stream's rules, written apart from it, with the Rust's decodes; the exported reader
//! beside the records as they lie; and the lines beside Rust's own formatting.

use crate::counts::Counts;
use crate::rounds::{Part, Rate};
use oracle::bits::same;
use oracle::splitmix::{Rule, SplitMix64};
use proved::streams::{self as calls, Line, MAX_PAYLOAD, Session};
use streams::expect::{self, Asked};
use streams::random;

pub const PARTS: &[Part] = &[
    Part {
        rate: Rate::Each(1),
        case: stream,
    },
    Part {
        rate: Rate::Each(1),
        case: lines,
    },
    Part {
        rate: Rate::Each(1),
        case: stream_of_both,
    },
];

fn stream(_: u64, g: &mut SplitMix64, counts: &mut Counts) {
    let names = ["sessions", "readers", "lines, what they imply"];
    compare(names, &random::stream(g), counts);
}

/// The same with settings of both kinds.
fn stream_of_both(_: u64, g: &mut SplitMix64, counts: &mut Counts) {
    let names = [
        "sessions, of both kinds",
        "readers, of both kinds",
        "lines of both kinds, what they imply",
    ];
    compare(names, &random::stream_of_both(g), counts);
}

fn compare([sessions, readers, implied]: [&'static str; 3], stream: &[u8], counts: &mut Counts) {
    let wanted = expect::run(stream);
    let (found, session) = said(stream);
    // No stream says a clip, and settings that were taken say their draw.
    let is_off = (session.words[CLIP_ON], session.floats[CLIP].to_bits()) == (0, 0);
    let is_drawn = match wanted.rule() {
        Some(rule) if wanted.stopped.is_none() => session.words[SOURCE] == source_of(rule),
        _ => true,
    };
    let good = found == wanted.text.as_bytes() && is_off && is_drawn;
    counts.check(sessions, Ok(()), good, || {
        format!(
            "{stream:?} gave {:?}, wanted {:?}, {session:?}",
            String::from_utf8_lossy(&found),
            wanted.text
        )
    });
    counts.check(readers, Ok(()), meets(stream), || format!("{stream:?}"));
    let text = String::from_utf8_lossy(&found);
    let lines: Vec<&str> = text.lines().collect();
    for asked in &wanted.decoded {
        // Each shot has a line, and nothing else has one before the last.
        let line = lines.get(asked.number).copied().unwrap_or_default();
        let good = is_implied(line, asked).unwrap_or(false);
        counts.check(implied, Ok(()), good, || format!("{line:?}: {asked:?}"));
    }
}

/// Whether the line of a shot that was decoded says what every decode implies: its bits have the parities of the syndrome exactly if it
/// converged, a leg was executed and not more than there are, and each has run. None where it does not read as such a line.
fn is_implied(line: &str, asked: &Asked) -> Option<bool> {
    let mut words = line.split(' ');
    let is_of_shot = words.next()? == "shot" && words.next()?.parse() == Ok(asked.number);
    let converged = bit(words.next()?.as_bytes())?;
    let total: u64 = words.next()?.parse().ok()?;
    let legs: u64 = words.next()?.parse().ok()?;
    let digits = words.next().unwrap_or_default().as_bytes();
    let bits: Vec<bool> = digits.chunks(1).map(bit).collect::<Option<_>>()?;
    let satisfies = asked.model.syndrome_of(&bits) == asked.syndrome;
    Some(
        is_of_shot
            && words.next().is_none()
            && bits.len() == asked.model.mechanisms.len()
            && satisfies == converged
            && (1..=u64::from(asked.legs) + 1).contains(&legs)
            && legs <= total,
    )
}

fn bit(digit: &[u8]) -> Option<bool> {
    match digit {
        b"0" => Some(false),
        b"1" => Some(true),
        _ => None,
    }
}

/// Where a session has its settings' clip, among the words and among the floats, and the source of their gammas.
const CLIP_ON: usize = 21;
const CLIP: usize = 4;
const SOURCE: usize = 19;

/// A draw as the calls name its source.
fn source_of(rule: Rule) -> usize {
    match rule {
        Rule::ByShot => 0,
        Rule::SeedXorLeg => 2,
    }
}

/// What a session says of a stream, and what it is then.
fn said(stream: &[u8]) -> (Vec<u8>, Session) {
    let mut session = calls::session_new();
    let (mut payload, mut model, mut line) = (vec![9; MAX_PAYLOAD], vec![9; MAX_PAYLOAD], [9; 512]);
    let mut text = Vec::new();
    for &byte in stream {
        calls::take(&mut session, byte, &mut payload, &mut model, &mut line);
        text.extend_from_slice(&line[..session.said()]);
    }
    let length = calls::finish(&session, &mut line);
    text.extend_from_slice(&line[..length]);
    (text, session)
}

fn number(bytes: &[u8]) -> u64 {
    bytes
        .iter()
        .rev()
        .fold(0, |sum, &byte| sum << 8 | u64::from(byte))
}

/// Whether a reader meets the records of a stream, each at its offset with its payload, and what is left over.
fn meets(stream: &[u8]) -> bool {
    let mut reader = calls::reader_new(0);
    let mut payload = vec![9; MAX_PAYLOAD];
    let mut start = 0;
    for (at, &byte) in stream.iter().enumerate() {
        calls::push(&mut reader, byte, &mut payload);
        let record = &stream[start..=at];
        let length = record.get(..4).map(|bytes| number(bytes) as usize);
        let whole = record.len() >= 6 && length.is_some_and(|length| record.len() == 6 + length);
        if calls::is_whole(&reader) != whole || reader[0] != start {
            return false;
        }
        if whole {
            if !is_read(&reader, &payload, record) {
                return false;
            }
            start = at + 1;
        }
    }
    calls::at_end(&reader) == if start == stream.len() { 0 } else { 40 }
}

/// Whether a reader at a record's end, and the payload that is kept, say what the record does.
fn is_read(reader: &calls::Reader, payload: &[u8], record: &[u8]) -> bool {
    let bytes = &record[6..];
    let kept = bytes.len().min(MAX_PAYLOAD);
    let kind = number(&record[4..6]) as usize;
    let pairs = [(false, false), (false, true), (true, false), (true, true)];
    let judged = pairs.iter().all(|&(model, settings)| {
        let wanted = expect::verdict(kind as u16, bytes, model && settings).unwrap_or(0);
        calls::verdict(reader, payload, model, settings) == u64::from(wanted)
    });
    reader[1] == record.len()
        && reader[2] == bytes.len()
        && reader[3] == kind
        && payload[..kept] == bytes[..kept]
        && judged
        && (expect::verdict(kind as u16, bytes, true).is_some()
            || match kind {
                1 => is_model(reader, payload, bytes),
                2 => is_settings(Rule::SeedXorLeg, kind, payload, bytes),
                4 => is_settings(Rule::ByShot, kind, payload, bytes),
                _ => calls::read_seed(payload) == number(&bytes[..8]),
            })
}

fn float(bytes: &[u8]) -> f64 {
    f64::from_bits(number(bytes))
}

/// Whether a model that 41 to 45 let through is read as its bytes lie.
fn is_model(reader: &calls::Reader, payload: &[u8], bytes: &[u8]) -> bool {
    let counts = [0, 4, 8].map(|place| number(&bytes[place..place + 4]) as usize);
    let [_, mechanisms, edges] = counts;
    let (heads, detectors) = bytes[12..].split_at(12 * mechanisms);
    let heads: Vec<(f64, u32)> = heads
        .chunks(12)
        .map(|head| (float(&head[..8]), number(&head[8..]) as u32))
        .collect();
    let mut sums = vec![0];
    sums.extend(heads.iter().scan(0, |sum, (_, degree)| {
        *sum += degree;
        Some(*sum)
    }));
    let detectors: Vec<u32> = detectors
        .chunks(4)
        .map(|word| number(word) as u32)
        .collect();
    let mut lists = (
        vec![9.0; mechanisms],
        vec![9; mechanisms + 1],
        vec![9; edges],
    );
    calls::read_model(payload, &mut lists.0, &mut lists.1, &mut lists.2);
    calls::read_counts(payload) == counts
        && reader[4..7] == counts
        && lists
            .0
            .iter()
            .zip(&heads)
            .all(|(found, (prior, _))| same(*found, *prior))
        && lists.1 == sums
        && lists.2 == detectors
}

/// Whether settings that 41 to 45 let through are read as their bytes lie, and with the draw of their kind.
fn is_settings(rule: Rule, kind: usize, payload: &[u8], bytes: &[u8]) -> bool {
    let (schedule, [floats @ .., clip], [counts @ .., clip_on, source]) =
        calls::read_settings(kind, payload);
    let wanted = [1, 9, 29, 37].map(|place| float(&bytes[place..place + 8]));
    schedule == bytes[0]
        && floats
            .iter()
            .zip(wanted)
            .all(|(found, wanted)| same(*found, wanted))
        && counts == [17, 21, 25, 45].map(|place| number(&bytes[place..place + 4]))
        // They say no clip, and mean that it is off.
        && (clip_on, clip.to_bits()) == (0, 0)
        && source as usize == source_of(rule)
}

/// A line over the front of a list whose surplus is kept.
fn is_written(line: &Line, length: usize, wanted: &str) -> bool {
    line[..length] == *wanted.as_bytes() && line[length..].iter().all(|&byte| byte == 9)
}

fn lines(_: u64, g: &mut SplitMix64, counts: &mut Counts) {
    let any = |g: &mut SplitMix64| (g.draw() >> (g.draw() % 64)) as usize;
    let (a, b, c) = (any(g), any(g), any(g));
    let converged = g.once_in(2);
    let count = g.below(257);
    let bits = g.bits(count);
    let digits: String = bits.iter().map(|bit| char::from(b'0' + bit)).collect();
    let space = if bits.is_empty() { "" } else { " " };
    let of_shot = format!("shot {a} {} {b} {c}{space}{digits}\n", u8::from(converged));
    let mut line = [9; 512];
    let said = calls::shot_line(a, converged, b, c, &bits, &mut line);
    let mut good = is_written(&line, said, &of_shot);
    good &= calls::shot_line(a, converged, b, c, &[1; 257], &mut line) == 0
        && is_written(&line, said, &of_shot);
    line = [9; 512];
    let said = calls::refused_line(a, b, &mut line);
    good &= is_written(&line, said, &format!("shot {a} refused {b}\n"));
    line = [9; 512];
    let said = calls::stopped_line(a, b, &mut line);
    good &= is_written(&line, said, &format!("stopped {a} {b}\n"));
    line = [9; 512];
    let said = calls::end_line(a, &mut line);
    good &= is_written(&line, said, &format!("end {a}\n"));
    counts.check("lines", Ok(()), good, || {
        format!("{a} {b} {c} {converged} {bits:?}")
    });
}

#[cfg(test)]
mod tests {
    use super::is_implied;
    use streams::expect;

    /// The reference's example: G without relayed legs, and a shot of the syndrome 1 and 0.
    #[test]
    fn lines_of_g() {
        let run = expect::run(include_bytes!("../../../examples/g.stream"));
        let asked = &run.decoded[0];
        for line in ["shot 0 1 2 1 100", "shot 0 1 9 1 011", "shot 0 0 1 1 000"] {
            assert_eq!(is_implied(line, asked), Some(true), "{line}");
        }
        for line in [
            "shot 1 1 2 1 100",
            "shot 0 0 2 1 100",
            "shot 0 1 2 1 000",
            "shot 0 1 2 1 010",
            "shot 0 1 0 1 100",
            "shot 0 1 2 0 100",
            "shot 0 1 2 2 100",
            "shot 0 1 2 1 10",
            "shot 0 1 2 1 1000",
            "shot 0 1 2 1 100 ",
            "shot 0 1 2 1",
        ] {
            assert_eq!(is_implied(line, asked), Some(false), "{line}");
        }
        for line in [
            "",
            "shot 0",
            "shot 0 2 2 1 100",
            "shot 0 1 x 1 100",
            "shot 0 1 2 1 102",
            "shot 0 refused 30",
            "end 1",
        ] {
            assert_eq!(is_implied(line, asked), None, "{line}");
        }
    }
}
