//! The clip of a check's message, which the published text has not: the build puts a call of it where the check update writes a message, in
//! one copy.

/// A message beyond the clip, which is one strictly greater in magnitude, becomes the clip with its sign. Every other stays as it is.
#[inline]
pub(crate) fn clipped(clip: Option<f64>, message: f64) -> f64 {
    match clip {
        Some(limit) if message.abs() > limit => limit.copysign(message),
        _ => message,
    }
}

#[cfg(test)]
mod tests {
    use super::clipped;

    #[test]
    fn strictly_beyond_it() {
        for (message, wanted) in [
            (2.0, 2.0),
            (-2.0, -2.0),
            (2.0_f64.next_up(), 2.0),
            (-2.0_f64.next_up(), -2.0),
            (2.0_f64.next_down(), 2.0_f64.next_down()),
            (f64::INFINITY, 2.0),
            (f64::NEG_INFINITY, -2.0),
            (0.0, 0.0),
            (-0.0, -0.0),
        ] {
            assert_eq!(clipped(Some(2.0), message).to_bits(), wanted.to_bits());
            assert_eq!(clipped(None, message).to_bits(), message.to_bits());
        }
        assert!(clipped(Some(2.0), f64::NAN).is_nan());
    }
}
