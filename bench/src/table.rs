//! The figures as tables for docs/BENCHMARKS.md.

use crate::models::EDGES;
use crate::timing::Row;
use proved::Size;
use std::fmt::Write;

/// A number with commas between thousands.
pub fn grouped(number: usize) -> String {
    let digits = number.to_string();
    let mut text = String::new();
    for (place, digit) in digits.chars().enumerate() {
        if place > 0 && (digits.len() - place).is_multiple_of(3) {
            text.push(',');
        }
        text.push(digit);
    }
    text
}

/// Nanoseconds as microseconds, to three digits or to the whole.
fn micro(nanoseconds: f64) -> String {
    let value = nanoseconds / 1000.0;
    match value {
        ..0.9995 => format!("{value:.3}"),
        ..9.995 => format!("{value:.2}"),
        ..99.95 => format!("{value:.1}"),
        _ => grouped(value.round() as usize),
    }
}

/// What each call takes beside the Rust.
pub fn beside(rows: &[Row]) -> String {
    let mut text = String::from(
        "| Call | Edges | Iterations | Proved µs | Rust µs | Ratio | Proved ns per edge | Rust ns per edge |\n|---|--:|--:|--:|--:|--:|--:|--:|\n",
    );
    for row in rows {
        let Some((rust, ratio)) = row.rust.zip(row.ratio()) else {
            continue;
        };
        let told = row
            .iterations
            .map_or(String::new(), |count| format!("{count:.1}"));
        let by_edge = |time: f64| {
            row.by_edge(time)
                .map_or(String::new(), |time| format!("{time:.1}"))
        };
        writeln!(
            text,
            "| {} | {} | {} | {} | {} | {ratio:.2} | {} | {} |",
            row.name(),
            grouped(row.edges),
            told.trim_end_matches(".0"),
            micro(row.proved),
            micro(rust),
            by_edge(row.proved),
            by_edge(rust),
        )
        .expect("a string takes all");
    }
    text
}

/// What the tests of each call take, in microseconds and in iterations of a decode.
pub fn tests(rows: &[Row]) -> String {
    let find = |call: &str, way: &str, edges: usize| {
        rows.iter()
            .find(|row| row.call == call && row.way == way && row.edges == edges)
    };
    let iteration = |edges: usize| {
        let row = find("decode", "Flooding, never", edges)?;
        Some(row.proved / row.iterations?)
    };
    let mut text = String::from("| Call | on nothing |");
    for edges in EDGES {
        write!(text, " {} edges |", grouped(edges)).expect("a string takes all");
    }
    text += "\n|---|--:|";
    text += &"--:|".repeat(EDGES.len());
    text.push('\n');
    for row in rows {
        if row.rust.is_some() || row.edges != EDGES[0] {
            continue;
        }
        let empty = find(row.call, "on nothing", 0);
        let empty = empty.map_or(String::new(), |row| micro(row.proved));
        write!(text, "| {} | {empty} |", row.name()).expect("a string takes all");
        for edges in EDGES {
            let cell = find(row.call, row.way, edges)
                .zip(iteration(edges))
                .map(|(row, one)| format!("{} ({:.1})", micro(row.proved), row.proved / one));
            write!(text, " {} |", cell.unwrap_or_default()).expect("a string takes all");
        }
        text.push('\n');
    }
    text
}

pub fn stack(rows: &[(&str, usize)]) -> String {
    let mut text = String::from("| Call | Bytes of stack |\n|---|--:|\n");
    for (call, bytes) in rows {
        writeln!(text, "| {call} | {} |", grouped(*bytes)).expect("a string takes all");
    }
    text
}

/// What a graph's lists take.
pub fn bytes(rows: &[(Size, usize)]) -> String {
    let mut text =
        String::from("| Edges | Checks | Mechanisms | Bytes of a graph |\n|--:|--:|--:|--:|\n");
    for (size, bytes) in rows {
        let [edges, checks, mechanisms, bytes] =
            [size.edges, size.checks, size.mechanisms, *bytes].map(grouped);
        writeln!(text, "| {edges} | {checks} | {mechanisms} | {bytes} |")
            .expect("a string takes all");
    }
    text
}

/// The text with what stands between a part's two marks replaced.
pub fn replaced(text: &str, part: &str, with: &str) -> Result<String, String> {
    let (from, to) = (
        format!("<!-- {part}: written by bench/run --write -->\n"),
        format!("<!-- end of {part} -->"),
    );
    let begin = text
        .find(&from)
        .ok_or(format!("there is no {}", from.trim()))?
        + from.len();
    let end = text[begin..].find(&to).ok_or(format!("there is no {to}"))? + begin;
    Ok(format!(
        "{}\n{}\n{}",
        &text[..begin],
        with.trim_end(),
        &text[end..]
    ))
}

#[cfg(test)]
mod tests {
    use super::*;

    #[test]
    fn numbers_are_grouped_and_rounded() {
        assert_eq!(grouped(0), "0");
        assert_eq!(grouped(999), "999");
        assert_eq!(grouped(1_048_576), "1,048,576");
        assert_eq!(micro(15.0), "0.015");
        assert_eq!(micro(9_994.0), "9.99");
        assert_eq!(micro(9_996.0), "10.0");
        assert_eq!(micro(99_960.0), "100");
        assert_eq!(micro(1_234_567.0), "1,235");
    }

    #[test]
    fn only_what_stands_between_the_marks_is_replaced() {
        let text = "a\n<!-- x: written by bench/run --write -->\n\nold\n<!-- end of x -->\nb\n";
        let new = replaced(text, "x", "new\n").unwrap();
        assert_eq!(
            new,
            "a\n<!-- x: written by bench/run --write -->\n\nnew\n<!-- end of x -->\nb\n"
        );
        assert_eq!(replaced(&new, "x", "new\n").unwrap(), new);
        assert!(replaced(text, "y", "new").is_err());
    }
}
