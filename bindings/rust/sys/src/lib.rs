//! The 21 calls of the archive `libexports.a`, declared for Rust. The build links the archive.
//!
//! A slice passes as a pointer and then its length, an array as a pointer alone, and an answer as a code: 0, or a refusal's
//! number plus 65,536 times its place. `bindings/c/chowderkite.h` says of each call which lengths its lists have, what it leaves
//! in them and what it refuses; `crates/exports/src` has the contract that it is proved to meet. `bindings/agree` holds these
//! declarations and the header to that source. [`calls`] and [`streams`] have the same over slices, in safe Rust, and [`lists`]
//! what a caller keeps for them.
//!
//! # Safety
//!
//! Of a call over lists:
//!
//! - Each pointer is aligned, and there are as many initialized elements as its length or its array says, to be read and, where
//!   it is `*mut`, written. A list of length 0 may have any pointer.
//! - A list that is written overlaps no other list, and no list is written by anyone else during the call.
//!
//! The call tests the rest itself. Calls over numbers alone ask nothing, and are safe.

#![no_std]
#![deny(missing_docs)]

#[cfg(not(target_pointer_width = "64"))]
compile_error!("the archive is for machines of 64 bits");

extern crate alloc;

pub mod calls;
pub mod lists;
pub mod streams;

/// The version of the calls that are declared here; [`chowderkite_version`] answers that of the archive that is linked.
pub const VERSION: u64 = 5;

unsafe extern "C" {
    /// The version of the calls: raised whenever a call, a list or a code changes its meaning.
    pub safe fn chowderkite_version() -> u64;

    /// Builds the graph of a sparse model.
    pub unsafe fn chowderkite_build_sparse(
        checks: usize,
        mechanisms: usize,
        edges: usize,
        priors: *const f64,
        priors_len: usize,
        detector_offsets: *const u32,
        detector_offsets_len: usize,
        detectors: *const u32,
        detectors_len: usize,
        check_var: *mut u32,
        check_var_len: usize,
        check_offset: *mut u32,
        check_offset_len: usize,
        var_check: *mut u32,
        var_check_len: usize,
        var_message: *mut u32,
        var_message_len: usize,
        var_offset: *mut u32,
        var_offset_len: usize,
    ) -> u64;

    /// How many bytes of a matrix are not 0.
    pub unsafe fn chowderkite_count_edges(matrix: *const u8, matrix_len: usize) -> usize;

    /// Builds the graph of a dense model.
    pub unsafe fn chowderkite_build_dense(
        checks: usize,
        mechanisms: usize,
        priors: *const f64,
        priors_len: usize,
        matrix: *const u8,
        matrix_len: usize,
        check_var: *mut u32,
        check_var_len: usize,
        check_offset: *mut u32,
        check_offset_len: usize,
        var_check: *mut u32,
        var_check_len: usize,
        var_message: *mut u32,
        var_message_len: usize,
        var_offset: *mut u32,
        var_offset_len: usize,
    ) -> u64;

    /// Tests graph lists and priors.
    pub unsafe fn chowderkite_check_graph(
        checks: usize,
        mechanisms: usize,
        edges: usize,
        priors: *const f64,
        priors_len: usize,
        check_var: *const u32,
        check_var_len: usize,
        check_offset: *const u32,
        check_offset_len: usize,
        var_check: *const u32,
        var_check_len: usize,
        var_message: *const u32,
        var_message_len: usize,
        var_offset: *const u32,
        var_offset_len: usize,
    ) -> u64;

    /// Builds the graph of a sparse model that is given by probabilities, and its priors.
    pub unsafe fn chowderkite_build_sparse_probabilities(
        checks: usize,
        mechanisms: usize,
        edges: usize,
        probabilities: *const f64,
        probabilities_len: usize,
        detector_offsets: *const u32,
        detector_offsets_len: usize,
        detectors: *const u32,
        detectors_len: usize,
        priors: *mut f64,
        priors_len: usize,
        check_var: *mut u32,
        check_var_len: usize,
        check_offset: *mut u32,
        check_offset_len: usize,
        var_check: *mut u32,
        var_check_len: usize,
        var_message: *mut u32,
        var_message_len: usize,
        var_offset: *mut u32,
        var_offset_len: usize,
    ) -> u64;

    /// Builds the graph of a dense model that is given by probabilities, and its priors.
    pub unsafe fn chowderkite_build_dense_probabilities(
        checks: usize,
        mechanisms: usize,
        probabilities: *const f64,
        probabilities_len: usize,
        matrix: *const u8,
        matrix_len: usize,
        priors: *mut f64,
        priors_len: usize,
        check_var: *mut u32,
        check_var_len: usize,
        check_offset: *mut u32,
        check_offset_len: usize,
        var_check: *mut u32,
        var_check_len: usize,
        var_message: *mut u32,
        var_message_len: usize,
        var_offset: *mut u32,
        var_offset_len: usize,
    ) -> u64;

    /// The prior of a probability, and the whole number that is 2^32 times as large.
    pub unsafe fn chowderkite_prior_of(
        probability: f64,
        mechanism: usize,
        prior: *mut [f64; 1],
        scaled: *mut [i64; 1],
    ) -> u64;

    /// The priors of a list of probabilities, and the whole numbers that are 2^32 times as large.
    pub unsafe fn chowderkite_priors_of(
        probabilities: *const f64,
        probabilities_len: usize,
        priors: *mut f64,
        priors_len: usize,
        scaled: *mut i64,
        scaled_len: usize,
    ) -> u64;

    /// Min-sum beliefs.
    pub unsafe fn chowderkite_beliefs(
        checks: usize,
        mechanisms: usize,
        edges: usize,
        priors: *const f64,
        priors_len: usize,
        check_var: *const u32,
        check_var_len: usize,
        check_offset: *const u32,
        check_offset_len: usize,
        var_check: *const u32,
        var_check_len: usize,
        var_message: *const u32,
        var_message_len: usize,
        var_offset: *const u32,
        var_offset_len: usize,
        syndrome: *const u8,
        syndrome_len: usize,
        iterations: usize,
        scale: f64,
        serial: u8,
        posterior: *mut f64,
        posterior_len: usize,
        ewa_posterior: *mut f64,
        ewa_posterior_len: usize,
        c_to_v: *mut f64,
        c_to_v_len: usize,
        v_to_c: *mut f64,
        v_to_c_len: usize,
    ) -> u64;

    /// Writes the published operating point: alpha, gamma0, gamma_low, gamma_high, the clip or 0.0; pre_iterations, num_legs,
    /// leg_iterations, stop_after_converged, 1 or 0 for a clip that is on or off, the source of its gammas. Answers its schedule.
    pub unsafe fn chowderkite_published(floats: *mut [f64; 5], counts: *mut [u64; 6]) -> u8;

    /// Tests settings over so many mechanisms.
    pub unsafe fn chowderkite_check_settings(
        schedule: u8,
        alpha: f64,
        clip_on: u8,
        clip: f64,
        gamma0: f64,
        pre_iterations: usize,
        num_legs: usize,
        leg_iterations: usize,
        gamma_low: f64,
        gamma_high: f64,
        stop_after_converged: usize,
        source: u8,
        sets: usize,
        mechanisms: usize,
        gammas: *const f64,
        gammas_len: usize,
    ) -> u64;

    /// Decodes a syndrome, the checks in index order. The counts: converged (1 or 0), executed legs, total iterations, message
    /// stores.
    pub unsafe fn chowderkite_decode(
        checks: usize,
        mechanisms: usize,
        edges: usize,
        priors: *const f64,
        priors_len: usize,
        check_var: *const u32,
        check_var_len: usize,
        check_offset: *const u32,
        check_offset_len: usize,
        var_check: *const u32,
        var_check_len: usize,
        var_message: *const u32,
        var_message_len: usize,
        var_offset: *const u32,
        var_offset_len: usize,
        schedule: u8,
        alpha: f64,
        clip_on: u8,
        clip: f64,
        gamma0: f64,
        pre_iterations: usize,
        num_legs: usize,
        leg_iterations: usize,
        gamma_low: f64,
        gamma_high: f64,
        stop_after_converged: usize,
        source: u8,
        sets: usize,
        gammas: *const f64,
        gammas_len: usize,
        syndrome: *const u8,
        syndrome_len: usize,
        seed: u64,
        leg_state: *mut u8,
        leg_state_len: usize,
        leg_steps: *mut u32,
        leg_steps_len: usize,
        leg_weight: *mut f64,
        leg_weight_len: usize,
        rows: *mut u8,
        rows_len: usize,
        correction: *mut u8,
        correction_len: usize,
        posterior: *mut f64,
        posterior_len: usize,
        gamma: *mut f64,
        gamma_len: usize,
        bias: *mut f64,
        bias_len: usize,
        c_to_v: *mut f64,
        c_to_v_len: usize,
        v_to_c: *mut f64,
        v_to_c_len: usize,
        counts: *mut [u64; 4],
        weight: *mut [f64; 1],
    ) -> u64;

    /// Decodes a syndrome, the checks in the order that is handed in.
    pub unsafe fn chowderkite_decode_in_order(
        checks: usize,
        mechanisms: usize,
        edges: usize,
        priors: *const f64,
        priors_len: usize,
        check_var: *const u32,
        check_var_len: usize,
        check_offset: *const u32,
        check_offset_len: usize,
        var_check: *const u32,
        var_check_len: usize,
        var_message: *const u32,
        var_message_len: usize,
        var_offset: *const u32,
        var_offset_len: usize,
        schedule: u8,
        alpha: f64,
        clip_on: u8,
        clip: f64,
        gamma0: f64,
        pre_iterations: usize,
        num_legs: usize,
        leg_iterations: usize,
        gamma_low: f64,
        gamma_high: f64,
        stop_after_converged: usize,
        source: u8,
        sets: usize,
        gammas: *const f64,
        gammas_len: usize,
        syndrome: *const u8,
        syndrome_len: usize,
        seed: u64,
        order: *const u32,
        order_len: usize,
        leg_state: *mut u8,
        leg_state_len: usize,
        leg_steps: *mut u32,
        leg_steps_len: usize,
        leg_weight: *mut f64,
        leg_weight_len: usize,
        rows: *mut u8,
        rows_len: usize,
        correction: *mut u8,
        correction_len: usize,
        posterior: *mut f64,
        posterior_len: usize,
        gamma: *mut f64,
        gamma_len: usize,
        bias: *mut f64,
        bias_len: usize,
        c_to_v: *mut f64,
        c_to_v_len: usize,
        v_to_c: *mut f64,
        v_to_c_len: usize,
        counts: *mut [u64; 4],
        weight: *mut [f64; 1],
    ) -> u64;

    /// Reads a leg's record: answers 2 if it converged, 1 if it ran out, 0 if it was not executed.
    pub unsafe fn chowderkite_leg_record(
        leg_state: *const u8,
        leg_state_len: usize,
        leg_steps: *const u32,
        leg_steps_len: usize,
        leg_weight: *const f64,
        leg_weight_len: usize,
        leg: usize,
        iterations: *mut [u64; 1],
        weight: *mut [f64; 1],
    ) -> u64;

    /// One Relay iteration, the checks in the order that is handed in.
    pub unsafe fn chowderkite_iteration(
        checks: usize,
        mechanisms: usize,
        edges: usize,
        priors: *const f64,
        priors_len: usize,
        check_var: *const u32,
        check_var_len: usize,
        check_offset: *const u32,
        check_offset_len: usize,
        var_check: *const u32,
        var_check_len: usize,
        var_message: *const u32,
        var_message_len: usize,
        var_offset: *const u32,
        var_offset_len: usize,
        schedule: u8,
        alpha: f64,
        clip_on: u8,
        clip: f64,
        gamma: *const f64,
        gamma_len: usize,
        syndrome: *const u8,
        syndrome_len: usize,
        order: *const u32,
        order_len: usize,
        c_to_v: *mut f64,
        c_to_v_len: usize,
        v_to_c: *mut f64,
        v_to_c_len: usize,
        posterior: *mut f64,
        posterior_len: usize,
        bias: *mut f64,
        bias_len: usize,
    ) -> u64;

    /// A refusal's number, out of its code.
    pub safe fn chowderkite_number_of(code: u64) -> u64;

    /// A refusal's place, out of its code; 0 too where it has none.
    pub safe fn chowderkite_place_of(code: u64) -> u64;

    /// A session before the first byte of a stream.
    pub unsafe fn chowderkite_session_new(words: *mut [usize; 22], floats: *mut [f64; 5]);

    /// One byte of the stream, to a session.
    pub unsafe fn chowderkite_take(
        words: *mut [usize; 22],
        floats: *mut [f64; 5],
        byte: u8,
        payload: *mut u8,
        payload_len: usize,
        model: *mut u8,
        model_len: usize,
        line: *mut [u8; 512],
    );

    /// The end of the stream, to a session: how long the last line is.
    pub unsafe fn chowderkite_finish(
        words: *const [usize; 22],
        floats: *const [f64; 5],
        line: *mut [u8; 512],
    ) -> usize;
}
