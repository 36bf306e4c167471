//! The error type, with only the cases that the published files build.

#[derive(Clone, Debug, PartialEq, Eq)]
pub enum DecoderError {
    InvalidConfiguration(String),
    InvalidDimensions { expected: usize, actual: usize },
    InvalidSyndrome(String),
    InternalError(String),
}
