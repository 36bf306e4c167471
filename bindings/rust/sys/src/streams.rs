//! The calls over record streams, in safe Rust: a slice goes with its own length, and one that is written is borrowed alone.

/// How many words a session has.
pub const SESSION_WORDS: usize = 22;

/// And how many floats.
pub const SESSION_FLOATS: usize = 5;

/// What a line has room for.
pub const LINE: usize = 512;

/// A line of `shots`, at the front.
pub type Line = [u8; LINE];

/// What the payload of a record within the room has at most: 256 mechanisms and 512 edges.
pub const MAX_PAYLOAD: usize = 5132;

/// A session: its words, as `bindings/c/chowderkite.h` names them, and its settings' floats.
#[derive(Clone, Debug, PartialEq)]
pub struct Session {
    /// The words.
    pub words: [usize; SESSION_WORDS],
    /// Alpha, gamma0, gamma_low, gamma_high and the clip, 0.0 for off.
    pub floats: [f64; SESSION_FLOATS],
}

impl Session {
    /// How long the line is that is to be written now.
    #[inline]
    #[must_use]
    pub const fn said(&self) -> usize {
        self.words[13]
    }
}

/// A session before the first byte of a stream.
#[inline]
#[must_use]
pub fn session_new() -> Session {
    let (mut words, mut floats) = ([0; SESSION_WORDS], [0.0; SESSION_FLOATS]);
    // SAFETY: both are arrays of the length that the call writes, and apart.
    unsafe { crate::chowderkite_session_new(&mut words, &mut floats) };
    Session { words, floats }
}

/// One byte of the stream.
#[inline]
pub fn take(
    session: &mut Session,
    byte: u8,
    payload: &mut [u8],
    model: &mut [u8],
    line: &mut Line,
) {
    // SAFETY: each pointer goes with the length of its own list, and a list that is written is borrowed alone.
    unsafe {
        crate::chowderkite_take(
            &mut session.words,
            &mut session.floats,
            byte,
            payload.as_mut_ptr(),
            payload.len(),
            model.as_mut_ptr(),
            model.len(),
            line,
        );
    }
}

/// The end of the stream: how long the last line is.
#[inline]
pub fn finish(session: &Session, line: &mut Line) -> usize {
    // SAFETY: arrays of the lengths that the call reads and writes.
    unsafe { crate::chowderkite_finish(&session.words, &session.floats, line) }
}
