    //! Put at the end of the copy of relay.rs that counts and clips, by build.rs, as a module of it: `super` is that file.

    use super::{DecoderError, RelayBp, RelayOutcome};

    /// Puts a clip on the decoder's check messages, or takes it off. It is off in a new decoder.
    pub fn set_clip(decoder: &mut RelayBp, clip: Option<f64>) {
        decoder.clip = clip;
    }

    /// A decode with its checks in the order given, which must name each check once.
    ///
    /// # Errors
    ///
    /// As a decode's.
    pub fn decode_in_order(
        decoder: &mut RelayBp,
        syndrome: &[u8],
        shot_seed: u64,
        order: &[u32],
    ) -> Result<RelayOutcome, DecoderError> {
        decoder.decode_in_order(syndrome, shot_seed, order)
    }
