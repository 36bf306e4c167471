//! Lists that a caller keeps from call to call, and how they are lent to [`calls`].

#![allow(missing_docs)] // the fields are named as the parameters of the calls

use crate::calls;
use alloc::{vec, vec::Vec};

/// How many checks, mechanisms and edges the caller says that there are.
#[derive(Clone, Copy, Debug, PartialEq, Eq)]
pub struct Size {
    pub checks: usize,
    pub mechanisms: usize,
    pub edges: usize,
}

/// The five lists of a graph.
#[derive(Clone, Debug, Default, PartialEq, Eq)]
pub struct GraphLists {
    pub check_var: Vec<u32>,
    pub check_offset: Vec<u32>,
    pub var_check: Vec<u32>,
    pub var_message: Vec<u32>,
    pub var_offset: Vec<u32>,
}

impl GraphLists {
    /// Lists that fit, filled with one number.
    #[must_use]
    pub fn filled(size: Size, with: u32) -> Self {
        let list = |length: usize| vec![with; length];
        Self {
            check_var: list(size.edges),
            check_offset: list(size.checks + 1),
            var_check: list(size.edges),
            var_message: list(size.edges),
            var_offset: list(size.mechanisms + 1),
        }
    }

    /// All five, in the order of the calls.
    pub fn each(&mut self) -> [&mut Vec<u32>; 5] {
        [
            &mut self.check_var,
            &mut self.check_offset,
            &mut self.var_check,
            &mut self.var_message,
            &mut self.var_offset,
        ]
    }

    /// For a call that fills them.
    #[inline]
    pub fn written(&mut self) -> calls::GraphLists<'_> {
        let [check_var, check_offset, var_check, var_message, var_offset] = self.each();
        calls::GraphLists {
            check_var,
            check_offset,
            var_check,
            var_message,
            var_offset,
        }
    }

    /// For a call over a graph of this size and with these priors.
    #[inline]
    #[must_use]
    pub fn graph<'a>(&'a self, size: Size, priors: &'a [f64]) -> calls::Graph<'a> {
        calls::Graph {
            checks: size.checks,
            mechanisms: size.mechanisms,
            edges: size.edges,
            priors,
            check_var: &self.check_var,
            check_offset: &self.check_offset,
            var_check: &self.var_check,
            var_message: &self.var_message,
            var_offset: &self.var_offset,
        }
    }
}

/// The lists that a decode writes: the legs' records, the correction, the posterior, the counts (converged, executed legs, total
/// iterations, message stores) and the weight are results, the others are for work.
#[derive(Clone, Debug, Default)]
pub struct DecodeLists {
    pub leg_state: Vec<u8>,
    pub leg_steps: Vec<u32>,
    pub leg_weight: Vec<f64>,
    pub rows: Vec<u8>,
    pub correction: Vec<u8>,
    pub posterior: Vec<f64>,
    pub gamma: Vec<f64>,
    pub bias: Vec<f64>,
    pub c_to_v: Vec<f64>,
    pub v_to_c: Vec<f64>,
    pub counts: [u64; 4],
    pub weight: [f64; 1],
}

impl DecodeLists {
    /// Lists that fit so many legs with leg zero, filled with one number.
    #[must_use]
    pub fn filled(size: Size, legs: usize, with: u8) -> Self {
        let float = f64::from(with);
        Self {
            leg_state: vec![with; legs],
            leg_steps: vec![u32::from(with); legs],
            leg_weight: vec![float; legs],
            rows: vec![with; legs * size.mechanisms],
            correction: vec![with; size.mechanisms],
            posterior: vec![float; size.mechanisms],
            gamma: vec![float; size.mechanisms],
            bias: vec![float; size.mechanisms],
            c_to_v: vec![float; size.edges],
            v_to_c: vec![float; size.edges],
            counts: [u64::from(with); 4],
            weight: [float],
        }
    }

    /// For a decode.
    #[inline]
    pub fn written(&mut self) -> calls::DecodeLists<'_> {
        calls::DecodeLists {
            leg_state: &mut self.leg_state,
            leg_steps: &mut self.leg_steps,
            leg_weight: &mut self.leg_weight,
            rows: &mut self.rows,
            correction: &mut self.correction,
            posterior: &mut self.posterior,
            gamma: &mut self.gamma,
            bias: &mut self.bias,
            c_to_v: &mut self.c_to_v,
            v_to_c: &mut self.v_to_c,
            counts: &mut self.counts,
            weight: &mut self.weight,
        }
    }

    /// A leg's state (2 converged, 1 ran out, 0 not executed), iterations and weight.
    #[inline]
    #[must_use]
    pub fn leg(&self, leg: usize) -> (u64, u64, f64) {
        calls::leg_record(&self.leg_state, &self.leg_steps, &self.leg_weight, leg)
    }
}
