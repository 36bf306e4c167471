//! Whether the archive that is linked has the calls that this crate makes.

use chowderkite_sys::{chowderkite_version, VERSION};
use std::sync::OnceLock;

/// Stands before the first call that anything here makes: where a graph is built, priors are made, settings are asked for or
/// tested, and a stream begins.
///
/// # Panics
///
/// If the archive is of another version.
pub(crate) fn check() {
    static ARCHIVE: OnceLock<u64> = OnceLock::new();
    compare(*ARCHIVE.get_or_init(|| chowderkite_version()));
}

fn compare(archive: u64) {
    assert!(
        archive == VERSION,
        "the archive is of version {archive}, this crate of version {VERSION}"
    );
}

#[cfg(test)]
mod tests {
    #[test]
    fn the_linked_archive() {
        super::check();
    }

    #[test]
    #[should_panic(expected = "the archive is of version 1, this crate of version 5")]
    fn another_archive() {
        super::compare(1);
    }
}
