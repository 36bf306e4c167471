//! Links the archive of the proved calls, which `bindings/archive` makes with the kit's `rt` or, where `CHOWDERKITE_ARCHIVE`
//! names one, takes as it is.

use std::env;
use std::fs;
use std::path::{Path, PathBuf};
use std::process::{Command, Stdio};

fn main() {
    println!("cargo:rerun-if-env-changed=CHOWDERKITE_ARCHIVE");
    let archive = match env::var_os("CHOWDERKITE_ARCHIVE") {
        Some(path) if !path.is_empty() => PathBuf::from(path),
        _ => made(),
    };
    println!("cargo:rerun-if-changed={}", archive.display());

    // A copy under the name that is linked, whatever the file is called.
    let out = PathBuf::from(env::var_os("OUT_DIR").expect("cargo sets OUT_DIR"));
    if let Err(error) = fs::copy(&archive, out.join("libexports.a")) {
        panic!("the archive {} can't be read: {error}", archive.display());
    }
    println!("cargo:rustc-link-search=native={}", out.display());
    println!("cargo:rustc-link-lib=static=exports");
}

/// The path of the archive, made anew where the sources are younger.
fn made() -> PathBuf {
    let root = Path::new(env!("CARGO_MANIFEST_DIR")).join("../../..");
    for part in ["crates.txt", "tools/nativelib"] {
        println!("cargo:rerun-if-changed={}", root.join(part).display());
    }
    // Not `out/`, which every run of `rt` writes.
    for entry in fs::read_dir(root.join("crates")).expect("crates/ can be read") {
        let folder = entry.expect("crates/ can be read").path();
        for part in ["src", "specs", "proofs"].map(|part| folder.join(part)) {
            if part.exists() {
                println!("cargo:rerun-if-changed={}", part.display());
            }
        }
    }
    let done = Command::new(root.join("bindings/archive"))
        .stderr(Stdio::inherit())
        .output();
    match done {
        Ok(output) if output.status.success() => {
            PathBuf::from(String::from_utf8_lossy(&output.stdout).trim_end())
        }
        _ => panic!(
            "bindings/archive failed: is the kit's `rt` at hand? \
             CHOWDERKITE_ARCHIVE=/path/libexports.a links an archive that was made elsewhere"
        ),
    }
}
