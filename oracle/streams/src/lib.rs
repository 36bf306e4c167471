//! Record streams apart from the proved code: what `shots` must write for one, random ones, the gate's, and the program itself.

pub mod compare;
mod counts;
mod decode;
pub mod expect;
pub mod gate;
pub mod program;
pub mod random;
mod stream;
