//! The calls over record streams: those of a session, which users have too, and those of `exports_compare` over readers and lines. A
//! slice goes with its own length, and one that is written is borrowed alone.

pub use chowderkite_sys::streams::{Line, MAX_PAYLOAD, Session, finish, session_new, take};

/// A reader's words: the record's offset, how many of its bytes were taken, its payload length, its kind, and of a model checks,
/// mechanisms, edges and the sum of its degrees.
pub type Reader = [usize; 8];

unsafe extern "C" {
    /// A reader before the first byte of the record at an offset.
    unsafe fn chowderkite_reader_new(offset: usize, reader: *mut [usize; 8]);

    /// 1 if the record has been read to its end, else 0.
    unsafe fn chowderkite_is_whole(reader: *const [usize; 8]) -> u8;

    /// One byte of the stream, to a reader.
    unsafe fn chowderkite_push(
        reader: *mut [usize; 8],
        byte: u8,
        payload: *mut u8,
        payload_len: usize,
    );

    /// 41 to 45 of a record that has been read to its end.
    unsafe fn chowderkite_verdict(
        reader: *const [usize; 8],
        payload: *const u8,
        payload_len: usize,
        has_model: u8,
        has_settings: u8,
    ) -> u64;

    /// 40 at the end of a stream, unless it ends with a whole record or holds nothing.
    unsafe fn chowderkite_at_end(reader: *const [usize; 8]) -> u64;

    /// Writes the checks, mechanisms and edges of a model's payload.
    unsafe fn chowderkite_read_counts(
        payload: *const u8,
        payload_len: usize,
        counts: *mut [usize; 3],
    );

    /// Fills the lists of a sparse model from its payload.
    unsafe fn chowderkite_read_model(
        payload: *const u8,
        payload_len: usize,
        priors: *mut f64,
        priors_len: usize,
        detector_offsets: *mut u32,
        detector_offsets_len: usize,
        detectors: *mut u32,
        detectors_len: usize,
    );

    /// Writes the floats and counts of a settings' payload of a kind, as `chowderkite_published` does. Answers the schedule.
    unsafe fn chowderkite_read_settings(
        kind: usize,
        payload: *const u8,
        payload_len: usize,
        floats: *mut [f64; 5],
        counts: *mut [u64; 6],
    ) -> u8;

    /// The seed of a shot's payload.
    unsafe fn chowderkite_read_seed(payload: *const u8, payload_len: usize) -> u64;

    /// The line of a shot that was decoded.
    unsafe fn chowderkite_shot_line(
        number: usize,
        converged: u8,
        total: usize,
        legs: usize,
        bits: *const u8,
        bits_len: usize,
        line: *mut [u8; 512],
    ) -> usize;

    /// The line of a shot that was refused.
    unsafe fn chowderkite_refused_line(number: usize, code: usize, line: *mut [u8; 512]) -> usize;

    /// The line of a refusal that ends the run.
    unsafe fn chowderkite_stopped_line(code: usize, offset: usize, line: *mut [u8; 512]) -> usize;

    /// The line at the end of a run without one.
    unsafe fn chowderkite_end_line(shots: usize, line: *mut [u8; 512]) -> usize;
}

/// A reader before the first byte of the record at an offset.
pub fn reader_new(offset: usize) -> Reader {
    let mut reader = [0; 8];
    // SAFETY: an array of the length that the call writes.
    unsafe { chowderkite_reader_new(offset, &mut reader) };
    reader
}

/// Whether the record has been read to its end.
pub fn is_whole(reader: &Reader) -> bool {
    // SAFETY: an array of the length that the call reads.
    unsafe { chowderkite_is_whole(reader) == 1 }
}

/// One byte of the stream.
pub fn push(reader: &mut Reader, byte: u8, payload: &mut [u8]) {
    // SAFETY: each pointer goes with the length of its own list, and a list that is written is borrowed alone.
    unsafe { chowderkite_push(reader, byte, payload.as_mut_ptr(), payload.len()) };
}

/// 41 to 45 of a record that has been read to its end, as a code.
pub fn verdict(reader: &Reader, payload: &[u8], has_model: bool, has_settings: bool) -> u64 {
    // SAFETY: as in `push`.
    unsafe {
        chowderkite_verdict(
            reader,
            payload.as_ptr(),
            payload.len(),
            u8::from(has_model),
            u8::from(has_settings),
        )
    }
}

/// 40 at the end of a stream, as a code.
pub fn at_end(reader: &Reader) -> u64 {
    // SAFETY: as in `is_whole`.
    unsafe { chowderkite_at_end(reader) }
}

/// The checks, mechanisms and edges of a model's payload.
pub fn read_counts(payload: &[u8]) -> [usize; 3] {
    let mut counts = [0; 3];
    // SAFETY: as in `push`.
    unsafe { chowderkite_read_counts(payload.as_ptr(), payload.len(), &mut counts) };
    counts
}

/// The lists of a model's payload, each as long as it is.
pub fn read_model(
    payload: &[u8],
    priors: &mut [f64],
    detector_offsets: &mut [u32],
    detectors: &mut [u32],
) {
    // SAFETY: as in `push`.
    unsafe {
        chowderkite_read_model(
            payload.as_ptr(),
            payload.len(),
            priors.as_mut_ptr(),
            priors.len(),
            detector_offsets.as_mut_ptr(),
            detector_offsets.len(),
            detectors.as_mut_ptr(),
            detectors.len(),
        );
    }
}

/// The settings of their payload, of a kind, as `chowderkite_sys::calls::published` has them.
pub fn read_settings(kind: usize, payload: &[u8]) -> (u8, [f64; 5], [u64; 6]) {
    let (mut floats, mut counts) = ([0.0; 5], [0; 6]);
    // SAFETY: as in `push`.
    let schedule = unsafe {
        chowderkite_read_settings(
            kind,
            payload.as_ptr(),
            payload.len(),
            &mut floats,
            &mut counts,
        )
    };
    (schedule, floats, counts)
}

/// The seed of a shot's payload.
pub fn read_seed(payload: &[u8]) -> u64 {
    // SAFETY: as in `push`.
    unsafe { chowderkite_read_seed(payload.as_ptr(), payload.len()) }
}

/// The line of a shot that was decoded: its length.
pub fn shot_line(
    number: usize,
    converged: bool,
    total: usize,
    legs: usize,
    bits: &[u8],
    line: &mut Line,
) -> usize {
    // SAFETY: as in `push`.
    unsafe {
        chowderkite_shot_line(
            number,
            u8::from(converged),
            total,
            legs,
            bits.as_ptr(),
            bits.len(),
            line,
        )
    }
}

/// The line of a shot that was refused.
pub fn refused_line(number: usize, code: usize, line: &mut Line) -> usize {
    // SAFETY: an array of the length that the call writes.
    unsafe { chowderkite_refused_line(number, code, line) }
}

/// The line of a refusal that ends the run.
pub fn stopped_line(code: usize, offset: usize, line: &mut Line) -> usize {
    // SAFETY: as in `refused_line`.
    unsafe { chowderkite_stopped_line(code, offset, line) }
}

/// The line at the end of a run without one.
pub fn end_line(shots: usize, line: &mut Line) -> usize {
    // SAFETY: as in `refused_line`.
    unsafe { chowderkite_end_line(shots, line) }
}
