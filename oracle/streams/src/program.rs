//! The program itself, run as the kit runs it, with its input in pieces of several kinds.

use std::fs::File;
use std::io::Write;
use std::os::fd::OwnedFd;
use std::os::unix::net::UnixDatagram;
use std::path::{Path, PathBuf};
use std::process::{Command, Output, Stdio};

/// The program reads at most this many bytes at once, and of a longer packet it would miss the rest.
pub const LONGEST_PACKET: usize = 4096;

pub struct Program {
    /// Emulator, loader and path, as far as there are any.
    words: Vec<String>,
}

pub fn root() -> PathBuf {
    Path::new(env!("CARGO_MANIFEST_DIR")).join("../..")
}

impl Program {
    /// `shots`, built if that is due, or the program at a path; `tools/program` says how it is run.
    ///
    /// # Errors
    ///
    /// The program can't be built or found.
    pub fn find(path: Option<&str>) -> Result<Self, String> {
        let told = Command::new(root().join("tools/program"))
            .arg("shots")
            .args(path)
            .stderr(Stdio::inherit())
            .output()
            .map_err(|error| format!("tools/program: {error}"))?;
        let text = String::from_utf8(told.stdout).map_err(|error| error.to_string())?;
        let words: Vec<String> = text.lines().map(str::to_string).collect();
        if told.status.success() && !words.is_empty() {
            Ok(Self { words })
        } else {
            Err("tools/program shots: there is no program to run".to_string())
        }
    }

    fn command(&self) -> Command {
        let mut command = Command::new(&self.words[0]);
        command.args(&self.words[1..]);
        command.stdout(Stdio::piped()).stderr(Stdio::piped());
        command
    }

    /// From a file.
    pub fn with_file(&self, file: File) -> std::io::Result<Output> {
        self.command().stdin(file).spawn()?.wait_with_output()
    }

    /// Through a pipe that is filled piece by piece. The program may find several pieces at once.
    pub fn with_pipe(&self, pieces: Vec<Vec<u8>>) -> std::io::Result<Output> {
        let mut child = self.command().stdin(Stdio::piped()).spawn()?;
        let mut pipe = child.stdin.take().expect("a piped input");
        let filling = std::thread::spawn(move || {
            for piece in pieces {
                // A program that has stopped reads no more.
                if pipe.write_all(&piece).is_err() {
                    break;
                }
            }
        });
        let output = child.wait_with_output();
        filling.join().expect("the thread that fills the pipe");
        output
    }

    /// Through a socket that keeps packets apart: each read finds exactly one piece, and at the end an empty one.
    pub fn with_packets(&self, pieces: Vec<Vec<u8>>) -> std::io::Result<Output> {
        let (ours, theirs) = UnixDatagram::pair()?;
        let child = self.command().stdin(OwnedFd::from(theirs)).spawn()?;
        let sending = std::thread::spawn(move || {
            for piece in pieces.iter().filter(|piece| !piece.is_empty()) {
                if ours.send(piece).is_err() {
                    return;
                }
            }
            // Nobody may be left to be told of the end.
            let _ = ours.send(&[]);
        });
        let output = child.wait_with_output();
        sending.join().expect("the thread that sends packets");
        output
    }
}
