//! Relay-BP.

use crate::draw::Draws;
use crate::{version, BpGraph, Error};
use chowderkite_sys::calls;
use chowderkite_sys::lists::DecodeLists;

/// In which order checks and mechanisms are updated within an iteration.
#[derive(Clone, Copy, Debug, PartialEq, Eq, Hash)]
pub enum Schedule {
    /// All checks, then all mechanisms.
    Flooding,
    /// Check by check, and after each its mechanisms.
    CheckSerial,
}

impl Schedule {
    /// As the calls name it.
    pub(crate) const fn byte(self) -> u8 {
        match self {
            Self::Flooding => 0,
            Self::CheckSerial => 1,
        }
    }
}

/// Where SplitMix64 starts for a relayed leg that draws its gammas. Legs count from 1; leg zero draws nothing.
///
/// ```
/// use chowderkite::{DrawRule, Error, GammaSource};
///
/// // A leg's gammas for three mechanisms.
/// let gammas = |rule: DrawRule, seed: u64, leg: usize| match GammaSource::drawn(rule, (-0.24, 0.66), seed, leg, 3)? {
///     GammaSource::Explicit { gammas, .. } => Ok::<_, Error>(gammas[3 * (leg - 1)..].to_vec()),
///     GammaSource::Seeded(_) => unreachable!(),
/// };
/// assert_eq!(gammas(DrawRule::SeedXorLeg, 40, 1)?, gammas(DrawRule::SeedXorLeg, 41, 2)?);
/// assert_ne!(gammas(DrawRule::ByShot, 40, 1)?, gammas(DrawRule::ByShot, 41, 2)?);
/// assert_eq!(DrawRule::default(), DrawRule::ByShot);
/// # Ok::<(), Error>(())
/// ```
#[derive(Clone, Copy, Debug, Default, PartialEq, Eq, Hash)]
pub enum DrawRule {
    /// At `shot * 65_536 + leg`: the seed is a shot number, below 2^48, and another is refused with 27. No two legs of any shots start
    /// alike. This is the rule where none is named.
    #[default]
    ByShot,
    /// At `seed ^ (leg + 1)`, of any seed: for records that were filed before there was another rule. Seed 40 in leg 1 and seed 41 in
    /// leg 2 both start at 42, and so share their gammas.
    SeedXorLeg,
}

impl DrawRule {
    /// As the calls name a source that draws by it.
    const fn byte(self) -> u8 {
        match self {
            Self::ByShot => calls::BY_SHOT,
            Self::SeedXorLeg => calls::SEED_XOR_LEG,
        }
    }
}

/// Where the gammas of relayed legs come from.
#[derive(Clone, Debug, PartialEq)]
pub enum GammaSource {
    /// Drawn by SplitMix64 from the shot's seed and the leg, within [`RelayConfig::gamma_range`].
    Seeded(DrawRule),
    /// Sets that are handed in. Relayed leg `r`, from 1, uses set `(r - 1) % sets`.
    Explicit {
        /// How many sets there are.
        sets: usize,
        /// A gamma for each mechanism, set after set.
        gammas: Vec<f64>,
    },
}

impl GammaSource {
    /// The sets that a shot with this seed draws for the first `legs` relayed legs: a seeded decode, made explicit for
    /// another decoder to repeat.
    ///
    /// ```
    /// use chowderkite::{BpGraph, DrawRule, GammaSource, RelayBp, RelayConfig};
    ///
    /// let graph = BpGraph::from_sparse(2, &[(4.0, vec![0]), (4.0, vec![0, 1]), (4.0, vec![1])])?;
    /// let seeded = RelayConfig { stop_after_converged: 5, ..RelayConfig::default() };
    /// let explicit = RelayConfig {
    ///     gamma_source: GammaSource::drawn(
    ///         DrawRule::ByShot,
    ///         seeded.gamma_range,
    ///         7,
    ///         seeded.num_legs,
    ///         graph.mechanism_count(),
    ///     )?,
    ///     ..seeded.clone()
    /// };
    /// let one = RelayBp::new(graph.clone(), seeded)?.decode(&[1, 0], 7)?;
    /// let other = RelayBp::new(graph, explicit)?.decode(&[1, 0], 7)?;
    /// assert_eq!(one, other);
    /// # Ok::<(), chowderkite::Error>(())
    /// ```
    ///
    /// # Errors
    ///
    /// Those of a decode that would draw them: 1 for the mechanisms, 13 for the legs, 15, and 27 for a shot number of 2^48 or above.
    /// Explicit sets take any seed, so sets of such a shot would be those of another one, and nobody would be told.
    pub fn drawn(
        rule: DrawRule,
        gamma_range: (f64, f64),
        seed: u64,
        legs: usize,
        mechanisms: usize,
    ) -> Result<Self, Error> {
        let seeded = RelayConfig {
            num_legs: legs,
            gamma_range,
            gamma_source: Self::Seeded(rule),
            ..RelayConfig::default()
        };
        seeded.check(mechanisms)?;
        // 27 is a decode's: one over nothing is asked.
        let nothing = BpGraph::from_sparse::<[u32; 0]>(0, &[])?;
        RelayBp::new(nothing, seeded)?.decode(&[], seed)?;
        let (low, high) = gamma_range;
        let mut gammas = Vec::new();
        for leg in 1..=legs as u64 {
            let mut draws = Draws::of_leg(rule, seed, leg);
            gammas.extend((0..mechanisms).map(|_| draws.gamma(low, high)));
        }
        Ok(Self::Explicit { sets: legs, gammas })
    }
}

/// Relay's settings.
///
/// The default is the published operating point, with gammas drawn by shot:
///
/// ```
/// use chowderkite::{DrawRule, GammaSource, RelayConfig, Schedule};
///
/// let config = RelayConfig::default();
/// assert_eq!(config.schedule, Schedule::Flooding);
/// assert_eq!((config.alpha, config.clip, config.gamma0), (1.0, None, 0.1));
/// assert_eq!((config.pre_iterations, config.num_legs, config.leg_iterations), (80, 40, 60));
/// assert_eq!(config.gamma_range, (-0.24, 0.66));
/// assert_eq!(config.stop_after_converged, 1);
/// assert_eq!(config.gamma_source, GammaSource::Seeded(DrawRule::ByShot));
/// ```
///
/// Explicit sets lie flat, one after the other:
///
/// ```
/// use chowderkite::{GammaSource, RelayConfig};
///
/// let sets = [[0.1, 0.2, 0.3], [0.3, 0.2, 0.1]];
/// let config = RelayConfig {
///     gamma_source: GammaSource::Explicit { sets: sets.len(), gammas: sets.concat() },
///     ..RelayConfig::default()
/// };
/// config.check(3)?;
/// assert_eq!(config.check(4).unwrap_err().number(), 18);
/// # Ok::<(), chowderkite::Error>(())
/// ```
#[derive(Clone, Debug, PartialEq)]
pub struct RelayConfig {
    /// The schedule of every leg.
    pub schedule: Schedule,
    /// Scale of check messages, finite and above 0.
    pub alpha: f64,
    /// Clip of check messages, finite and above 0; `None` is off, which is what `pecos-bp` does.
    ///
    /// A check's message that is strictly greater in magnitude becomes the clip with its sign, once it has been scaled by `alpha`. Nothing
    /// else is clipped.
    ///
    /// A mechanism sums up what its checks say, and hands it back to each of them. So where mechanisms are very busy, messages can grow many
    /// times over with each iteration, until a posterior is not finite and 30 refuses. A clip bounds them; 30, as large as a prior can be,
    /// is one to begin with. With a clip of at most 31, and `gamma0` and all other gammas, or the ends of their interval, from -1 to 1, no
    /// decode is refused with 30: that is proved.
    ///
    /// ```
    /// use chowderkite::{BpGraph, RelayBp, RelayConfig};
    ///
    /// // Three mechanisms, which set off eight neighbouring checks each. The first of them happened.
    /// let busy = [0..8, 1..9, 2..10].map(|checks| (4.0, checks.collect::<Vec<u32>>()));
    /// let graph = BpGraph::from_sparse(10, &busy)?;
    /// let decode = |clip: Option<f64>| {
    ///     let config = RelayConfig { clip, ..RelayConfig::default() };
    ///     RelayBp::new(graph.clone(), config)?.decode(&[1, 1, 1, 1, 1, 1, 1, 1, 0, 0], 69)
    /// };
    /// assert_eq!(decode(None).unwrap_err().number(), 30);
    /// let outcome = decode(Some(30.0))?;
    /// assert!(outcome.converged);
    /// assert_eq!(outcome.correction, [1, 0, 0]);
    /// # Ok::<(), chowderkite::Error>(())
    /// ```
    pub clip: Option<f64>,
    /// Memory strength of leg zero, for every mechanism.
    pub gamma0: f64,
    /// At most so many iterations in leg zero, 1 to 65,535.
    pub pre_iterations: usize,
    /// Relayed legs after leg zero, at most 65,535.
    pub num_legs: usize,
    /// At most so many iterations in each relayed leg, 1 to 65,535; 0 too where there are no relayed legs.
    pub leg_iterations: usize,
    /// Low and high end of the gammas that are drawn. Tested with explicit sets too.
    pub gamma_range: (f64, f64),
    /// Stop once so many legs have converged, at least 1.
    pub stop_after_converged: usize,
    /// Where the gammas of relayed legs come from.
    pub gamma_source: GammaSource,
}

impl Default for RelayConfig {
    /// The published operating point, as the proved settings have it.
    fn default() -> Self {
        version::check();
        let (schedule, floats, counts) = calls::published();
        let [alpha, gamma0, low, high, clip] = floats;
        let [pre_iterations, num_legs, leg_iterations, stop_after_converged, clip_on, source] =
            counts.map(|count| count as usize);
        let rules = [DrawRule::ByShot, DrawRule::SeedXorLeg];
        let Some(rule) = rules
            .into_iter()
            .find(|rule| usize::from(rule.byte()) == source)
        else {
            unreachable!("the archive answered the source {source}, which its contract rules out")
        };
        Self {
            schedule: if schedule == 0 {
                Schedule::Flooding
            } else {
                Schedule::CheckSerial
            },
            alpha,
            clip: (clip_on != 0).then_some(clip),
            gamma0,
            pre_iterations,
            num_legs,
            leg_iterations,
            gamma_range: (low, high),
            stop_after_converged,
            gamma_source: GammaSource::Seeded(rule),
        }
    }
}

impl RelayConfig {
    /// Tests the settings as a decode over so many mechanisms does.
    ///
    /// # Errors
    ///
    /// 1 for the mechanisms; 9 to 19.
    pub fn check(&self, mechanisms: usize) -> Result<(), Error> {
        version::check();
        Error::of_code(calls::check_settings(self.lent(), mechanisms))
    }

    fn lent(&self) -> calls::Settings<'_> {
        let (source, sets, gammas): (u8, usize, &[f64]) = match &self.gamma_source {
            GammaSource::Seeded(rule) => (rule.byte(), 0, &[]),
            GammaSource::Explicit { sets, gammas } => (calls::EXPLICIT, *sets, gammas),
        };
        calls::Settings {
            schedule: self.schedule.byte(),
            alpha: self.alpha,
            clip_on: u8::from(self.clip.is_some()),
            clip: self.clip.unwrap_or(0.0),
            gamma0: self.gamma0,
            pre_iterations: self.pre_iterations,
            num_legs: self.num_legs,
            leg_iterations: self.leg_iterations,
            gamma_low: self.gamma_range.0,
            gamma_high: self.gamma_range.1,
            stop_after_converged: self.stop_after_converged,
            source,
            sets,
            gammas,
        }
    }
}

/// What became of a leg.
#[derive(Clone, Debug, PartialEq)]
pub enum LegOutcome {
    /// Every parity matched.
    Converged {
        /// Sum of the priors of the correction's mechanisms; less is more likely.
        weight: f64,
        /// Iterations until then.
        iterations: usize,
        /// The leg's correction, a bit for each mechanism.
        correction: Vec<u8>,
    },
    /// It came to the limit of iterations.
    RanOut {
        /// Iterations, all that it had.
        iterations: usize,
    },
    /// Enough legs had converged before it.
    NotExecuted,
}

impl LegOutcome {
    /// Whether the leg converged.
    #[must_use]
    pub const fn converged(&self) -> bool {
        matches!(self, Self::Converged { .. })
    }

    /// The iterations that it took, 0 if it was not executed.
    #[must_use]
    pub const fn iterations(&self) -> usize {
        match self {
            Self::Converged { iterations, .. } | Self::RanOut { iterations } => *iterations,
            Self::NotExecuted => 0,
        }
    }

    /// Its weight, if it converged.
    #[must_use]
    pub const fn weight(&self) -> Option<f64> {
        match self {
            Self::Converged { weight, .. } => Some(*weight),
            _ => None,
        }
    }

    /// Its correction, if it converged.
    #[must_use]
    pub fn correction(&self) -> Option<&[u8]> {
        match self {
            Self::Converged { correction, .. } => Some(correction),
            _ => None,
        }
    }
}

/// What a decode found.
#[derive(Clone, Debug, PartialEq)]
pub struct RelayOutcome {
    /// Whether a leg converged.
    pub converged: bool,
    /// A bit for each mechanism: of the converged leg of least weight, of the earlier one on ties; without convergence, the last
    /// hard decision.
    pub correction: Vec<u8>,
    /// The correction's weight, if a leg converged: the sum of the priors of its mechanisms.
    pub weight: Option<f64>,
    /// The posterior log ratio of each mechanism at the end of the last leg.
    pub posterior: Vec<f64>,
    /// Leg zero, then each relayed leg, those too that were not executed.
    pub legs: Vec<LegOutcome>,
    /// How many legs were executed: the first ones in `legs`.
    pub executed_legs: usize,
    /// The iterations of all legs together.
    pub total_iterations: usize,
    /// The messages that these iterations wrote, those of the checks and those of the mechanisms together, each as often as it was
    /// written: what the decode cost, the same on every machine.
    ///
    /// Under [`Schedule::Flooding`] it is `total_iterations` times twice the edges. Under [`Schedule::CheckSerial`] it is
    /// `total_iterations` times the sum of the edges and of all squared mechanism degrees, since a mechanism writes all its messages
    /// after each of its checks. No order changes it. What starts a leg is not counted, and a posterior is no message.
    ///
    /// ```
    /// use chowderkite::{BpGraph, RelayBp, RelayConfig, Schedule};
    ///
    /// // Four edges; the mechanisms have the degrees 1, 2 and 1.
    /// let graph = BpGraph::from_sparse(2, &[(4.0, vec![0]), (4.0, vec![0, 1]), (4.0, vec![1])])?;
    /// for (schedule, each) in [(Schedule::Flooding, 2 * 4), (Schedule::CheckSerial, 4 + (1 + 4 + 1))] {
    ///     let config = RelayConfig { schedule, ..RelayConfig::default() };
    ///     let outcome = RelayBp::new(graph.clone(), config)?.decode(&[1, 0], 7)?;
    ///     assert_eq!(outcome.stores, outcome.total_iterations as u64 * each);
    /// }
    /// # Ok::<(), chowderkite::Error>(())
    /// ```
    pub stores: u64,
}

/// What a decode's lists say of a leg.
fn leg_of(lists: &DecodeLists, leg: usize) -> LegOutcome {
    let (state, iterations, weight) = lists.leg(leg);
    let iterations = iterations as usize;
    match state {
        2 => {
            let mechanisms = lists.correction.len();
            LegOutcome::Converged {
                weight,
                iterations,
                correction: lists.rows[leg * mechanisms..(leg + 1) * mechanisms].to_vec(),
            }
        }
        1 => LegOutcome::RanOut { iterations },
        _ => LegOutcome::NotExecuted,
    }
}

/// What they say of the decode.
fn outcome_of(lists: &DecodeLists) -> RelayOutcome {
    let [converged, executed_legs, total_iterations, stores] = lists.counts;
    let converged = converged == 1;
    RelayOutcome {
        converged,
        correction: lists.correction.clone(),
        weight: converged.then_some(lists.weight[0]),
        posterior: lists.posterior.clone(),
        legs: (0..lists.leg_state.len())
            .map(|leg| leg_of(lists, leg))
            .collect(),
        executed_legs: executed_legs as usize,
        total_iterations: total_iterations as usize,
        stores,
    }
}

/// A Relay-BP decoder: a graph, settings, and the lists that its decodes use again and again.
///
/// An outcome depends on the graph, the settings, the syndrome and the seed, and on nothing else: not on the shots before it.
/// A decode allocates what it hands back, and no more.
///
/// ```
/// use chowderkite::{BpGraph, RelayBp, RelayConfig};
///
/// let graph = BpGraph::from_sparse(2, &[(4.0, vec![0]), (4.0, vec![0, 1]), (4.0, vec![1])])?;
/// let mut decoder = RelayBp::new(graph, RelayConfig::default())?;
/// for (shot, syndrome) in [[0, 0], [1, 0], [1, 1]].iter().enumerate() {
///     let outcome = decoder.decode(syndrome, shot as u64)?;
///     assert!(outcome.converged);
/// }
/// # Ok::<(), chowderkite::Error>(())
/// ```
#[derive(Clone, Debug)]
pub struct RelayBp {
    graph: BpGraph,
    config: RelayConfig,
    lists: DecodeLists,
}

impl RelayBp {
    /// A decoder, with its lists. The largest has a byte for each leg and mechanism: (`num_legs` + 1) times mechanisms.
    ///
    /// # Errors
    ///
    /// 9 to 19.
    pub fn new(graph: BpGraph, config: RelayConfig) -> Result<Self, Error> {
        config.check(graph.mechanism_count())?;
        let lists = DecodeLists::filled(graph.size(), config.num_legs + 1, 0);
        Ok(Self {
            graph,
            config,
            lists,
        })
    }

    /// Decodes a syndrome, a byte 0 or 1 for each check. The seed counts where gammas are drawn: by shot, as they are unless another rule is
    /// named, it is the shot's number, below 2^48. Give each shot its own.
    ///
    /// # Errors
    ///
    /// 20, 21, 27, 29, 30.
    pub fn decode(&mut self, syndrome: &[u8], seed: u64) -> Result<RelayOutcome, Error> {
        Error::of_code(calls::decode(
            self.graph.lent(),
            self.config.lent(),
            syndrome,
            seed,
            self.lists.written(),
        ))?;
        Ok(outcome_of(&self.lists))
    }

    /// Decodes with the checks taken in a given order, which changes no bit of the outcome: an order that could is refused.
    ///
    /// Under [`Schedule::Flooding`] any order that names each check once is taken, under [`Schedule::CheckSerial`] any that besides
    /// keeps the index order of checks that share a mechanism.
    ///
    /// ```
    /// use chowderkite::{BpGraph, RelayBp, RelayConfig, Schedule};
    ///
    /// let graph = BpGraph::from_sparse(2, &[(4.0, vec![0]), (4.0, vec![0, 1]), (4.0, vec![1])])?;
    /// let mut flooding = RelayBp::new(graph.clone(), RelayConfig::default())?;
    /// assert_eq!(flooding.decode_in_order(&[1, 0], 7, &[1, 0])?, flooding.decode(&[1, 0], 7)?);
    ///
    /// let serial = RelayConfig { schedule: Schedule::CheckSerial, ..RelayConfig::default() };
    /// let mut serial = RelayBp::new(graph, serial)?;
    /// let error = serial.decode_in_order(&[1, 0], 7, &[1, 0]).unwrap_err();
    /// assert_eq!((error.number(), error.place()), (24, Some(0)));
    /// # Ok::<(), chowderkite::Error>(())
    /// ```
    ///
    /// # Errors
    ///
    /// 20, 21, 27, 23, 24, 29, 30.
    pub fn decode_in_order(
        &mut self,
        syndrome: &[u8],
        seed: u64,
        order: &[u32],
    ) -> Result<RelayOutcome, Error> {
        Error::of_code(calls::decode_in_order(
            self.graph.lent(),
            self.config.lent(),
            syndrome,
            seed,
            order,
            self.lists.written(),
        ))?;
        Ok(outcome_of(&self.lists))
    }

    /// The graph.
    #[must_use]
    pub const fn graph(&self) -> &BpGraph {
        &self.graph
    }

    /// The settings.
    #[must_use]
    pub const fn config(&self) -> &RelayConfig {
        &self.config
    }
}
