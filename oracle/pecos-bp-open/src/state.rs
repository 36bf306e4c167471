//! What an iteration starts from, and what it leaves.

#[derive(Clone, Debug)]
pub struct State {
    pub c_to_v: Vec<f64>,
    pub v_to_c: Vec<f64>,
    pub posterior: Vec<f64>,
}
