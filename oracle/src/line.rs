//! The text of a case: numbers in lowercase hexadecimal, a space between.

use crate::answers::Refusal;

/// What a case is: the first number of its line.
#[derive(Clone, Copy)]
pub enum Kind {
    SparseGraph,
    DenseGraph,
    Beliefs,
    Decode,
}

pub struct Line {
    text: String,
}

impl Line {
    pub fn of(kind: Kind) -> Self {
        Self {
            text: format!("{:x}", kind as u8),
        }
    }

    pub fn number(&mut self, value: u64) {
        self.text += &format!(" {value:x}");
    }

    pub fn count(&mut self, value: usize) {
        self.number(value as u64);
    }

    pub fn counts<'a>(&mut self, values: impl IntoIterator<Item = &'a usize>) {
        values.into_iter().for_each(|value| self.count(*value));
    }

    pub fn bytes(&mut self, values: &[u8]) {
        for &value in values {
            self.number(u64::from(value));
        }
    }

    /// The float's bits. Every NaN is written as one, since its other bits carry nothing here.
    pub fn float(&mut self, value: f64) {
        let bits = if value.is_nan() {
            0x7ff8_0000_0000_0000
        } else {
            value.to_bits()
        };
        self.number(bits);
    }

    pub fn floats(&mut self, values: &[f64]) {
        for &value in values {
            self.float(value);
        }
    }

    /// A refusal's number and place; or both 0, and then what is answered.
    pub fn answer<T>(&mut self, answer: &Result<T, Refusal>, write: impl FnOnce(&T, &mut Self)) {
        match answer {
            Ok(good) => {
                self.counts([&0, &0]);
                write(good, self);
            }
            Err(Refusal { code, place }) => self.counts([code, place]),
        }
    }

    pub fn finish(self) -> String {
        self.text
    }
}
