//! Links the archive of the calls that only the comparison makes, beside that of `chowderkite-sys`: `bindings/archive` makes it or,
//! where `CHOWDERKITE_COMPARE_ARCHIVE` names one, it is taken as it is.

use std::env;
use std::fs;
use std::path::{Path, PathBuf};
use std::process::{Command, Stdio};

fn main() {
    println!("cargo::rerun-if-env-changed=CHOWDERKITE_COMPARE_ARCHIVE");
    let root = Path::new(env!("CARGO_MANIFEST_DIR")).join("../..");
    for part in ["crates.txt", "tools/nativelib"] {
        println!("cargo::rerun-if-changed={}", root.join(part).display());
    }
    // Not `out/`, which every run of `rt` writes.
    for entry in fs::read_dir(root.join("crates")).expect("crates/ can be read") {
        let folder = entry.expect("crates/ can be read").path();
        for part in ["src", "specs", "proofs"].map(|part| folder.join(part)) {
            if part.exists() {
                println!("cargo::rerun-if-changed={}", part.display());
            }
        }
    }
    let made = Command::new(root.join("bindings/archive"))
        .arg("exports_compare")
        .stderr(Stdio::inherit())
        .output()
        .expect("bindings/archive runs");
    assert!(
        made.status.success(),
        "bindings/archive failed: is the kit's `rt` at hand? \
         CHOWDERKITE_COMPARE_ARCHIVE=/path/libexports_compare.a links an archive that was made elsewhere"
    );
    let archive = PathBuf::from(String::from_utf8_lossy(&made.stdout).trim_end());
    println!("cargo::rerun-if-changed={}", archive.display());

    let out = PathBuf::from(env::var_os("OUT_DIR").expect("cargo sets OUT_DIR"));
    if let Err(error) = fs::copy(&archive, out.join("libexports_compare.a")) {
        panic!("the archive {} can't be read: {error}", archive.display());
    }
    println!("cargo::rustc-link-search=native={}", out.display());
    println!("cargo::rustc-link-lib=static=exports_compare");
}
