//! Keeps what the compiler says of itself, so that the binary can print it.

use std::process::Command;

fn main() {
    println!("cargo::rerun-if-changed=build.rs");
    println!("cargo::rerun-if-env-changed=RUSTC");
    let rustc = std::env::var_os("RUSTC").expect("set by cargo");
    let output = Command::new(rustc).arg("-vV").output().expect("rustc -vV");
    let text = String::from_utf8(output.stdout).expect("rustc -vV speaks UTF-8");
    // One line, since a build script hands on one line a variable.
    let line = text.lines().collect::<Vec<_>>().join("|");
    println!("cargo::rustc-env=ORACLE_RUSTC={line}");
    for (name, variable) in [
        ("ORACLE_TARGET", "TARGET"),
        ("ORACLE_FEATURES", "CARGO_CFG_TARGET_FEATURE"),
        ("ORACLE_OPT_LEVEL", "OPT_LEVEL"),
    ] {
        let value = std::env::var(variable).unwrap_or_default();
        println!("cargo::rustc-env={name}={value}");
    }
}
