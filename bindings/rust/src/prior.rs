//! Priors of probabilities.

use crate::{version, Error};
use chowderkite_sys::calls;

/// The prior of a probability.
#[derive(Clone, Copy, Debug, PartialEq)]
pub struct Prior {
    /// The log ratio, from -30 to 30: exactly `scaled / 2^32`.
    pub value: f64,
    /// The whole number of 2^-32 that was worked out.
    pub scaled: i64,
}

/// The priors of a list of probabilities.
#[derive(Clone, Debug, Default, PartialEq)]
pub struct Priors {
    /// The log ratios, each from -30 to 30 and exactly its `scaled / 2^32`.
    pub values: Vec<f64>,
    /// The whole numbers of 2^-32 that were worked out.
    pub scaled: Vec<i64>,
}

/// The prior of a probability `p`: `ln((1 - p) / p)`, cut to -30 and 30.
///
/// It is 30 at 0 and at -0.0, -30 at 1, and positive zero at 1/2. It is worked out in whole numbers of 2^-32: powers of two are
/// taken out, and ten terms of the series of 2 artanh are summed, each step rounded towards zero. So it has the same bits on
/// every machine. It is never further from 0 than those terms exactly summed, and at most 256 of 2^-32 nearer. A larger `p` never
/// has a larger prior, and where `1 - p` is a float, its prior is the negative.
///
/// ```
/// use chowderkite::prior_of;
///
/// let prior = prior_of(0.01)?;
/// assert_eq!(prior.scaled, 19_735_889_468);
/// assert_eq!(prior.value, 19_735_889_468.0 / 4_294_967_296.0); // 4.595, which is ln(99)
/// assert_eq!(prior_of(0.25)?.value, -prior_of(0.75)?.value);
/// assert_eq!((prior_of(0.0)?.value, prior_of(0.5)?.value, prior_of(1.0)?.value), (30.0, 0.0, -30.0));
/// # Ok::<(), chowderkite::Error>(())
/// ```
///
/// # Errors
///
/// 8, at mechanism 0.
pub fn prior_of(probability: f64) -> Result<Prior, Error> {
    let (mut prior, mut scaled) = ([0.0], [0]);
    version::check();
    Error::of_code(calls::prior_of(probability, 0, &mut prior, &mut scaled))?;
    let ([value], [scaled]) = (prior, scaled);
    Ok(Prior { value, scaled })
}

/// The priors of a list of probabilities, each as [`prior_of`] has it.
///
/// ```
/// use chowderkite::{priors_of, BpGraph};
///
/// let priors = priors_of(&[0.01, 0.02])?;
/// let graph = BpGraph::from_sparse_lists(1, priors.values, &[0, 1, 2], &[0, 0])?;
/// assert_eq!(graph, BpGraph::from_probabilities(1, &[(0.01, [0]), (0.02, [0])])?);
///
/// let error = priors_of(&[0.01, 1.5, -0.1]).unwrap_err();
/// assert_eq!((error.number(), error.place()), (8, Some(1)));
/// # Ok::<(), chowderkite::Error>(())
/// ```
///
/// # Errors
///
/// 8, at the first probability that is none. Of a list of 2^32 or more, the place is kept modulo 2^32.
pub fn priors_of(probabilities: &[f64]) -> Result<Priors, Error> {
    let mut values = vec![0.0; probabilities.len()];
    let mut scaled = vec![0; probabilities.len()];
    version::check();
    Error::of_code(calls::priors_of(probabilities, &mut values, &mut scaled))?;
    Ok(Priors { values, scaled })
}
