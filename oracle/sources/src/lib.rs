//! For the build scripts: where the published files stand, and how they are handed to the compiler.

pub mod changes;
pub mod marks;
pub mod writes;

use std::env;
use std::path::{Path, PathBuf};

/// The variable that names the folder of the published sources.
const VARIABLE: &str = "PECOS_SRC";
/// The default, from the folder of a package of this workspace.
const DEFAULT: &str = "../../../shared/docs/src";

/// The two published files, by absolute path.
pub struct Published {
    pub min_sum: PathBuf,
    pub relay: PathBuf,
}

/// Find the two files and tell cargo what the build hangs on; stop the build if they are not there.
#[must_use]
pub fn published_or_stop() -> Published {
    println!("cargo::rerun-if-env-changed={VARIABLE}");
    println!("cargo::rerun-if-changed=build.rs");
    let folder = source_folder();
    let file = |name: &str| {
        let path = folder.join("crates/pecos-bp/src").join(name);
        println!("cargo::rerun-if-changed={}", path.display());
        path.canonicalize().unwrap_or_else(|error| {
            stop(&format!(
                "{}: {error}. Set {VARIABLE} to the folder that holds PECOS's crates/pecos-bp/src",
                path.display()
            ))
        })
    };
    Published {
        min_sum: file("min_sum.rs"),
        relay: file("relay.rs"),
    }
}

fn source_folder() -> PathBuf {
    match env::var_os(VARIABLE).filter(|value| !value.is_empty()) {
        Some(value) => {
            let folder = PathBuf::from(value);
            if folder.is_relative() {
                stop(&format!(
                    "{VARIABLE} must be an absolute path, got {}",
                    folder.display()
                ));
            }
            folder
        }
        None => Path::new(&env::var_os("CARGO_MANIFEST_DIR").expect("set by cargo")).join(DEFAULT),
    }
}

/// The text of a file; it stops the build if it can't be read.
#[must_use]
pub fn read(path: &Path) -> String {
    std::fs::read_to_string(path)
        .unwrap_or_else(|error| stop(&format!("cannot read {}: {error}", path.display())))
}

/// Writes a file of the build folder, and gives its path.
pub fn write_out(name: &str, text: &str) -> PathBuf {
    let out = env::var_os("OUT_DIR").expect("set by cargo");
    let path = Path::new(&out).join(name);
    std::fs::write(&path, text).expect("writing into the build folder");
    path
}

/// A public module whose text is the file at `path`.
#[must_use]
pub fn module_line(name: &str, path: &Path) -> String {
    let path = path.to_str().unwrap_or_else(|| stop("a path is not UTF-8"));
    format!("#[path = {path:?}]\npub mod {name};\n")
}

/// Write what the package's lib.rs includes.
pub fn write_modules(text: &str) {
    write_out("modules.rs", text);
}

/// End the build with a message.
pub fn stop(why: &str) -> ! {
    println!("cargo::error={why}");
    std::process::exit(1);
}
