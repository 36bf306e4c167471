//! Counts checks that passed and failed, a line each.

use std::path::Path;

#[derive(Default)]
pub struct Tally {
    passed: usize,
    failed: usize,
}

impl Tally {
    pub fn check(&mut self, name: &str, holds: bool, seen: &str) {
        if holds {
            self.passed += 1;
            println!("pass {name}: {seen}");
        } else {
            self.failed += 1;
            println!("FAIL {name}: {seen}");
        }
    }

    /// Writes a file that is committed; it fails where another one stood there. What stands there already is not written again, since a file
    /// that is younger than the archive has it made anew.
    pub fn write_committed(&mut self, name: &str, path: &Path, bytes: &[u8], seen: &str) {
        let (holds, found) = match std::fs::read(path) {
            Ok(before) if before == bytes => (true, "as it stood"),
            Ok(_) => (false, "CHANGED against what stood there"),
            Err(_) => (true, "new"),
        };
        let written = if found == "as it stood" {
            Ok(())
        } else {
            std::fs::write(path, bytes)
        };
        match written {
            Ok(()) => self.check(
                name,
                holds,
                &format!("{seen}{} bytes, {found}", bytes.len()),
            ),
            Err(error) => self.check(name, false, &format!("{}: {error}", path.display())),
        }
    }

    pub fn failed(&self) -> bool {
        self.failed > 0
    }

    pub fn print(&self) {
        println!("{} passed, {} failed", self.passed, self.failed);
    }
}
