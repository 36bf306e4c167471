//! Floats, compared by their bits.

pub fn bits(list: &[f64]) -> Vec<u64> {
    list.iter().map(|value| value.to_bits()).collect()
}

/// Whether each is a positive zero.
pub fn is_zero(list: &[f64]) -> bool {
    list.iter().all(|value| value.to_bits() == 0)
}

/// The same bits, or a NaN for any NaN.
pub fn same(a: f64, b: f64) -> bool {
    a.to_bits() == b.to_bits() || a.is_nan() && b.is_nan()
}
