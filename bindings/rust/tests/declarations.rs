//! The declarations of `chowderkite-sys` are those of the Rattle sources: a difference would not show when linking.

use std::path::Path;
use std::process::Command;

#[test]
fn declarations_agree() {
    let agree = Path::new(env!("CARGO_MANIFEST_DIR")).join("../agree");
    let output = Command::new(agree).output().unwrap();
    let told = String::from_utf8_lossy(&output.stdout);
    let why = String::from_utf8_lossy(&output.stderr);
    assert!(output.status.success(), "{told}{why}");
}
