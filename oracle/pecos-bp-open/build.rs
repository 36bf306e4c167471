//! Writes, into the build folder only, both files with one module more at their ends, which can reach what is private to them, and before
//! that of `relay.rs` its two iterations once more, with their checks in an order that is handed in. And `relay.rs` another time, with a
//! clip on what its check update writes, with a counter behind each write of a message in an iteration, and with its legs and its decode in
//! an order besides.

use pecos_sources::changes::{Change, change};
use pecos_sources::writes::{Place, count};
use pecos_sources::{module_line, published_or_stop, read, stop, write_modules, write_out};
use std::path::{Path, PathBuf};

/// What writes messages: the three updates of an iteration, whose writes are counted, and the start of a leg, whose are not.
const PLACES: [Place; 5] = [
    Place {
        function: "update_check",
        list: "c_to_v",
        counts: true,
    },
    Place {
        function: "update_variable_flooding",
        list: "v_to_c",
        counts: true,
    },
    Place {
        function: "update_variable_serial",
        list: "v_to_c",
        counts: true,
    },
    Place {
        function: "start_leg",
        list: "c_to_v",
        counts: false,
    },
    Place {
        function: "start_leg",
        list: "v_to_c",
        counts: false,
    },
];

/// The clip: a field of the decoder that is off at first, handed to each check update, and put on each message that this writes. Of these
/// there is one write, which [`PLACES`] says; and an update that was called elsewhere would not compile.
const CLIP: [Change; 6] = [
    Change {
        item: "pub struct RelayBp {",
        old: "    config: RelayConfig,\n",
        new: "    config: RelayConfig,\n    clip: Option<f64>,\n",
    },
    Change {
        item: "pub fn new(graph: BpGraph, config: RelayConfig)",
        old: "            config,\n",
        new: "            config,\n            clip: None,\n",
    },
    Change {
        item: "fn flooding_iteration(",
        old: HANDED,
        new: HANDED_WITH_CLIP,
    },
    Change {
        item: "fn check_serial_iteration(",
        old: HANDED,
        new: HANDED_WITH_CLIP,
    },
    Change {
        item: "fn update_check(",
        old: "    alpha: f64,\n",
        new: "    alpha: f64,\n    clip: Option<f64>,\n",
    },
    Change {
        item: "fn update_check(",
        old: " = alpha * exclusive_sign * exclusive_min;\n",
        new: " = crate::clip::clipped(clip, alpha * exclusive_sign * exclusive_min);\n",
    },
];

/// What an iteration hands to a check update, up to alpha.
const HANDED: &str = "update_check(
                &self.graph,
                syndrome,
                self.config.alpha,
";

const HANDED_WITH_CLIP: &str = "update_check(
                &self.graph,
                syndrome,
                self.config.alpha,
                self.clip,
";

/// A method that is had in an order too, and what is exchanged in it for that.
type InOrder = (&'static str, &'static [(&'static str, &'static str)]);

/// What an iteration walks the checks by.
const WALK: (&str, &str) = (
    "0..self.graph.check_count()",
    "order.iter().map(|&check| check as usize)",
);

const ITERATIONS: &[InOrder] = &[
    ("flooding_iteration", &[WALK]),
    ("check_serial_iteration", &[WALK]),
];

const DECODE: &[InOrder] = &[
    (
        "run_leg",
        &[
            (
                "self.flooding_iteration(syndrome)",
                "self.flooding_iteration_in_order(syndrome, order)",
            ),
            (
                "self.check_serial_iteration(syndrome)",
                "self.check_serial_iteration_in_order(syndrome, order)",
            ),
        ],
    ),
    (
        "decode",
        &[(
            "self.run_leg(syndrome, iteration_limit)",
            "self.run_leg_in_order(syndrome, iteration_limit, order)",
        )],
    ),
];

/// The method of a published text once more, over the checks of an order.
fn in_order(text: &str, (name, exchanged): InOrder) -> String {
    let not_so = || -> ! { stop(&format!("{name} is not as it was published")) };
    let head = format!("fn {name}(");
    if text.matches(&head).count() != 1 {
        not_so();
    }
    let Some((parameters, answer, body)) = text.split_once(&head).and_then(|(_, after)| {
        let (parameters, after) = after.split_once(')')?;
        let (answer, after) = after.split_once("{\n")?;
        let (body, _) = after.split_once("\n    }\n")?;
        Some((parameters, answer, body))
    }) else {
        not_so();
    };
    let mut body = body.to_string();
    for (old, new) in exchanged {
        if body.matches(old).count() != 1 {
            not_so();
        }
        body = body.replace(old, new);
    }
    let parameters = parameters.trim_end().trim_end_matches(',');
    format!("    fn {name}_in_order({parameters}, order: &[u32]){answer}{{\n{body}\n    }}\n")
}

/// A text as `copy`, with more at its end: these methods of `RelayBp` in an order, and these modules of this package.
fn with_modules(text: &str, copy: &str, methods: &[InOrder], names: &[&str]) -> PathBuf {
    let mut with = text.to_string();
    if !methods.is_empty() {
        let methods: String = methods.iter().map(|one| in_order(text, *one)).collect();
        with += &format!("\nimpl RelayBp {{\n{methods}}}\n");
    }
    for name in names {
        let module = format!("src/{name}.rs");
        println!("cargo::rerun-if-changed={module}");
        with += &format!("\npub mod {name} {{\n{}}}\n", read(Path::new(&module)));
    }
    write_out(copy, &with)
}

fn main() {
    let published = published_or_stop();
    let text = read(&published.min_sum);
    let min_sum = with_modules(&text, "min_sum.rs", &[], &["priors"]);
    let text = read(&published.relay);
    let relay = with_modules(&text, "relay.rs", ITERATIONS, &["step"]);
    let counting = change(&text, &CLIP)
        .and_then(|clipping| count(&clipping, &PLACES, "crate::stores::one();"))
        .unwrap_or_else(|why| stop(&format!("{}: {why}", published.relay.display())));
    let methods = [ITERATIONS, DECODE].concat();
    let modules = ["step", "whole"];
    let counting = with_modules(&counting, "relay_counting.rs", &methods, &modules);
    write_modules(
        &[
            module_line("min_sum", &min_sum),
            module_line("relay", &relay),
            module_line("relay_counting", &counting),
        ]
        .concat(),
    );
}
