    //! Put at the end of each copy of relay.rs by build.rs, as a module of it: `super` is that file.

    use super::{RelayBp, RelayConfig, Schedule};
    use crate::{BpGraph, State};
    use pecos_decoder_core::dem::SparseDem;

    /// A decoder for single iterations over a model.
    ///
    /// # Panics
    ///
    /// If the model or alpha is refused.
    #[must_use]
    pub fn stepping(model: &SparseDem, serial: bool, alpha: f64) -> RelayBp {
        let config = RelayConfig {
            schedule: if serial {
                Schedule::CheckSerial
            } else {
                Schedule::Flooding
            },
            alpha,
            num_legs: 0,
            ..RelayConfig::default()
        };
        let graph = BpGraph::from_sparse_dem(model).expect("the model builds");
        RelayBp::new(graph, config).expect("the settings are good")
    }

    /// One iteration from a state and its gammas, with the checks in the order given.
    pub fn iteration(
        decoder: &mut RelayBp,
        gamma: &[f64],
        syndrome: &[u8],
        order: &[u32],
        state: &mut State,
    ) {
        load(decoder, gamma, state);
        let by_index = order.iter().enumerate().all(|(place, &check)| place == check as usize);
        step(decoder, syndrome, (!by_index).then_some(order));
        store(decoder, state);
    }

    /// Makes a state the decoder's own.
    pub fn load(decoder: &mut RelayBp, gamma: &[f64], state: &State) {
        decoder.gamma.copy_from_slice(gamma);
        decoder.c_to_v.copy_from_slice(&state.c_to_v);
        decoder.v_to_c.copy_from_slice(&state.v_to_c);
        decoder.posterior.copy_from_slice(&state.posterior);
    }

    /// Reads the decoder's own state.
    pub fn store(decoder: &RelayBp, state: &mut State) {
        state.c_to_v.copy_from_slice(&decoder.c_to_v);
        state.v_to_c.copy_from_slice(&decoder.v_to_c);
        state.posterior.copy_from_slice(&decoder.posterior);
    }

    /// One iteration on the decoder's own state: the published one, or the same with its checks in an order.
    pub fn step(decoder: &mut RelayBp, syndrome: &[u8], order: Option<&[u32]>) {
        match (decoder.config.schedule, order) {
            (Schedule::Flooding, None) => decoder.flooding_iteration(syndrome),
            (Schedule::CheckSerial, None) => decoder.check_serial_iteration(syndrome),
            (Schedule::Flooding, Some(order)) => decoder.flooding_iteration_in_order(syndrome, order),
            (Schedule::CheckSerial, Some(order)) => decoder.check_serial_iteration_in_order(syndrome, order),
        }
    }
