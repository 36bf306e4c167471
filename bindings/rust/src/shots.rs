//! Record streams.

use crate::version;
use chowderkite_sys::streams::{self, Line, LINE, MAX_PAYLOAD};

/// A run of the program `shots` over a record stream that is fed in pieces of any size: the proved session, with its lists.
///
/// The reference has the stream's records and the lines; `./shots --help` and `tools/stream` in the repository say the same. Its room is
/// 128 checks, 256 mechanisms, 512 edges and 16 relayed legs. A stream's settings say no [clip](crate::RelayConfig::clip), and mean that it is
/// off. Those of kind 4 mean gammas [drawn by shot](crate::DrawRule::ByShot), and those of kind 2, which streams had before there was another
/// rule, [from the seed xor the leg](crate::DrawRule::SeedXorLeg).
///
/// ```
/// use chowderkite::Shots;
///
/// // Model G, settings, and one shot: the reference's example.
/// let stream = include_bytes!(concat!(env!("CARGO_MANIFEST_DIR"), "/../../examples/g.stream"));
/// let mut shots = Shots::new();
/// let mut text = shots.feed(&stream[..70]);
/// text.extend(shots.feed(&stream[70..]));
/// text.extend(shots.finish());
/// assert_eq!(String::from_utf8(text).unwrap(), "shot 0 1 2 1 100\nend 1\n");
/// ```
#[derive(Clone, Debug)]
pub struct Shots {
    session: streams::Session,
    payload: Vec<u8>,
    model: Vec<u8>,
    line: Line,
}

impl Default for Shots {
    fn default() -> Self {
        Self::new()
    }
}

impl Shots {
    /// Before the first byte.
    #[must_use]
    pub fn new() -> Self {
        version::check();
        Self {
            session: streams::session_new(),
            payload: vec![0; MAX_PAYLOAD],
            model: vec![0; MAX_PAYLOAD],
            line: [0; LINE],
        }
    }

    /// The next bytes of the stream, and the lines that are to be written now. After a refusal that ended the run it says nothing more.
    #[must_use = "a line is handed out once"]
    pub fn feed(&mut self, bytes: &[u8]) -> Vec<u8> {
        let mut text = Vec::new();
        for &byte in bytes {
            streams::take(
                &mut self.session,
                byte,
                &mut self.payload,
                &mut self.model,
                &mut self.line,
            );
            text.extend_from_slice(&self.line[..self.session.said()]);
        }
        text
    }

    /// The end of the stream: the last line, or nothing after a run that a refusal has ended.
    #[must_use]
    pub fn finish(mut self) -> Vec<u8> {
        let said = streams::finish(&self.session, &mut self.line);
        self.line[..said].to_vec()
    }
}
