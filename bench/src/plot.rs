//! The figures as a picture: time for one edge against the number of edges, in SVG by hand. Text and lines are dark on white, or
//! light on dark where the reader's screen asks for that.

use crate::models::EDGES;
use crate::table::grouped;
use crate::timing::Row;
use std::fmt::Write;

const STYLE: &str = "
  text { font: 13px system-ui, sans-serif; fill: #1f2328; }
  .back { fill: #ffffff; }
  .title { font-weight: 600; }
  .small { font-size: 11px; fill: #59636e; }
  .grid { stroke: #d1d9e0; stroke-width: 1; }
  .axis { stroke: #59636e; stroke-width: 1; }
  .line { fill: none; stroke-width: 2; }
  .proved { stroke: #0969da; }
  .rust { stroke: #bc4c00; }
  .dot.proved { fill: #0969da; }
  .dot.rust { fill: #bc4c00; }
  .serial { stroke-dasharray: 7 4; }
  @media (prefers-color-scheme: dark) {
    text { fill: #e6edf3; }
    .back { fill: #0d1117; }
    .small { fill: #9198a1; }
    .grid { stroke: #30363d; }
    .axis { stroke: #9198a1; }
    .proved { stroke: #58a6ff; }
    .rust { stroke: #f0883e; }
    .dot.proved { fill: #58a6ff; }
    .dot.rust { fill: #f0883e; }
  }
";

const WIDTH: f64 = 900.0;
const HEIGHT: f64 = 720.0;
/// A panel's drawing area, and where the first one stands.
const WIDE: f64 = 360.0;
const HIGH: f64 = 230.0;
const LEFT: f64 = 70.0;
const TOP: f64 = 84.0;
const NEXT_RIGHT: f64 = 440.0;
const NEXT_DOWN: f64 = 324.0;

/// What a panel shows: its title, the unit of time, and for each line the row's call and way and whether it is dashed.
struct Panel {
    title: &'static str,
    unit: &'static str,
    lines: &'static [(&'static str, &'static str, bool)],
}

const PANELS: [Panel; 4] = [
    Panel {
        title: "build_sparse",
        unit: "ns per edge",
        lines: &[("build_sparse", "", false)],
    },
    Panel {
        title: "beliefs, 20 iterations",
        unit: "ns per edge and iteration",
        lines: &[
            ("beliefs", "not serial", false),
            ("beliefs", "serial", true),
        ],
    },
    Panel {
        title: "iteration, index order",
        unit: "ns per edge",
        lines: &[
            ("iteration", "Flooding, index order", false),
            ("iteration", "CheckSerial, index order", true),
        ],
    },
    Panel {
        title: "decode, 40 iterations",
        unit: "ns per edge and iteration",
        lines: &[
            ("decode", "Flooding, never", false),
            ("decode", "CheckSerial, never", true),
        ],
    },
];

/// A line's points: edges, and nanoseconds for one edge of one iteration.
type Points = Vec<(f64, f64)>;

fn points(rows: &[Row], call: &str, way: &str, time: fn(&Row) -> Option<f64>) -> Points {
    rows.iter()
        .filter(|row| row.call == call && row.way == way)
        .filter_map(|row| Some((row.edges as f64, row.by_edge(time(row)?)?)))
        .collect()
}

/// The step between marks of an axis that goes from 0 to at least `most`: four to eight of them.
fn step_of(most: f64) -> f64 {
    let power = 10_f64.powf((most / 8.0).log10().floor());
    let steps = [1.0, 2.0, 5.0, 10.0].map(|step| step * power);
    steps
        .into_iter()
        .find(|step| most / step <= 8.0)
        .unwrap_or(most)
}

/// The x of a number of edges, within a panel.
fn across(edges: f64) -> f64 {
    let (first, last) = (EDGES[0] as f64, EDGES[EDGES.len() - 1] as f64);
    WIDE * (0.04 + 0.92 * (edges / first).ln() / (last / first).ln())
}

fn panel(out: &mut String, panel: &Panel, rows: &[Row], left: f64, top: f64) -> std::fmt::Result {
    let mut lines: Vec<(Points, &str, bool)> = Vec::new();
    for &(call, way, dashed) in panel.lines {
        lines.push((points(rows, call, way, |row| row.rust), "rust", dashed));
        lines.push((
            points(rows, call, way, |row| Some(row.proved)),
            "proved",
            dashed,
        ));
    }
    let most = lines
        .iter()
        .flat_map(|(points, ..)| points)
        .fold(1.0, |most: f64, (_, time)| most.max(*time));
    let step = step_of(most);
    let marks = (most / step).ceil();
    let up = |time: f64| HIGH * (1.0 - time / (marks * step));

    writeln!(out, "<g transform=\"translate({left} {top})\">")?;
    let middle = WIDE / 2.0;
    writeln!(
        out,
        "<text class=\"title\" x=\"0\" y=\"-26\">{}</text>",
        panel.title
    )?;
    writeln!(
        out,
        "<text class=\"small\" x=\"0\" y=\"-9\">{}</text>",
        panel.unit
    )?;
    for mark in 0..=marks as usize {
        let value = mark as f64 * step;
        let y = up(value);
        let class = if mark == 0 { "axis" } else { "grid" };
        writeln!(
            out,
            "<line class=\"{class}\" x1=\"0\" y1=\"{y:.1}\" x2=\"{WIDE}\" y2=\"{y:.1}\"/>\
             <text class=\"small\" x=\"-8\" y=\"{:.1}\" text-anchor=\"end\">{value}</text>",
            y + 4.0
        )?;
    }
    for edges in EDGES {
        let x = across(edges as f64);
        writeln!(
            out,
            "<line class=\"axis\" x1=\"{x:.1}\" y1=\"{HIGH}\" x2=\"{x:.1}\" y2=\"{:.1}\"/>\
             <text class=\"small\" x=\"{x:.1}\" y=\"{:.1}\" text-anchor=\"middle\">{}</text>",
            HIGH + 5.0,
            HIGH + 18.0,
            grouped(edges)
        )?;
    }
    writeln!(
        out,
        "<text class=\"small\" x=\"{middle}\" y=\"{}\" text-anchor=\"middle\">edges</text>",
        HIGH + 35.0
    )?;
    for (points, class, dashed) in &lines {
        let dash = if *dashed { " serial" } else { "" };
        let path: Vec<String> = points
            .iter()
            .map(|&(edges, time)| format!("{:.1},{:.1}", across(edges), up(time)))
            .collect();
        writeln!(
            out,
            "<polyline class=\"line {class}{dash}\" points=\"{}\"/>",
            path.join(" ")
        )?;
        for &(edges, time) in points {
            dot(out, class, across(edges), up(time))?;
        }
    }
    writeln!(out, "</g>")
}

/// A round dot for the proved code and a square one for the Rust, so that colour is not all that tells them apart.
fn dot(out: &mut String, class: &str, x: f64, y: f64) -> std::fmt::Result {
    if class == "proved" {
        writeln!(
            out,
            "<circle class=\"dot {class}\" cx=\"{x:.1}\" cy=\"{y:.1}\" r=\"3.5\"/>"
        )
    } else {
        writeln!(
            out,
            "<rect class=\"dot {class}\" x=\"{:.1}\" y=\"{:.1}\" width=\"6\" height=\"6\"/>",
            x - 3.0,
            y - 3.0
        )
    }
}

fn legend(out: &mut String) -> std::fmt::Result {
    let entries = [
        (LEFT, "proved", "", "proved code"),
        (LEFT + 150.0, "rust", "", "Rust (PECOS)"),
        (LEFT + 320.0, "axis", "", "Flooding, or not serial"),
        (LEFT + 540.0, "axis", " serial", "CheckSerial, or serial"),
    ];
    for (x, class, dash, told) in entries {
        writeln!(
            out,
            "<line class=\"line {class}{dash}\" x1=\"{x}\" y1=\"22\" x2=\"{}\" y2=\"22\"/>\
             <text x=\"{}\" y=\"26\">{told}</text>",
            x + 34.0,
            x + 42.0
        )?;
        if class != "axis" {
            dot(out, class, x + 17.0, 22.0)?;
        }
    }
    Ok(())
}

fn drawn(rows: &[Row]) -> Result<String, std::fmt::Error> {
    let mut out = String::new();
    writeln!(
        out,
        "<svg xmlns=\"http://www.w3.org/2000/svg\" viewBox=\"0 0 {WIDTH} {HEIGHT}\" width=\"{WIDTH}\" height=\"{HEIGHT}\" role=\"img\">\n\
         <title>Time for one edge against the number of edges, of the proved code and the Rust</title>\n\
         <style>{STYLE}</style>\n\
         <rect class=\"back\" width=\"{WIDTH}\" height=\"{HEIGHT}\"/>"
    )?;
    legend(&mut out)?;
    for (place, one) in PANELS.iter().enumerate() {
        let left = LEFT + NEXT_RIGHT * (place % 2) as f64;
        let top = TOP + NEXT_DOWN * (place / 2) as f64;
        panel(&mut out, one, rows, left, top)?;
    }
    writeln!(
        out,
        "<text class=\"small\" x=\"{LEFT}\" y=\"{}\">Three detectors a mechanism, but 16 at 1,048,576 edges: \
         there each update of CheckSerial sums 16 messages.</text>\n</svg>",
        HEIGHT - 14.0
    )?;
    Ok(out)
}

pub fn svg(rows: &[Row]) -> String {
    drawn(rows).expect("a string takes all")
}
