//! The two model shapes. Observables stay in the tuple because the published file takes it apart;
//! coordinates and observable matrices are left out.

use std::ops::Index;

/// A sparse model: for each mechanism its probability, detectors and observables.
pub struct SparseDem {
    pub mechanisms: Vec<(f64, Vec<u32>, Vec<u32>)>,
    pub num_detectors: usize,
}

/// A dense model: a row for each detector, a column for each mechanism.
pub struct DemCheckMatrix {
    pub check_matrix: Matrix,
    pub error_priors: Vec<f64>,
    pub num_detectors: usize,
}

/// A row-major array of bytes with two indices.
pub struct Matrix {
    columns: usize,
    bytes: Vec<u8>,
}

impl Matrix {
    /// Panics if `bytes` is not `rows` times `columns` long.
    #[must_use]
    pub fn new(rows: usize, columns: usize, bytes: Vec<u8>) -> Self {
        assert_eq!(bytes.len(), rows * columns, "matrix length");
        Self { columns, bytes }
    }
}

impl Index<[usize; 2]> for Matrix {
    type Output = u8;

    fn index(&self, [row, column]: [usize; 2]) -> &u8 {
        assert!(column < self.columns, "matrix column");
        &self.bytes[row * self.columns + column]
    }
}
