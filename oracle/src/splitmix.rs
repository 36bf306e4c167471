//! SplitMix64, the public algorithm: the source of the cases, and of the reference's seeded gammas.

/// Where the published outputs below start, which is also where leg 54,919 of shot 18 does, by shot.
pub const PUBLISHED_START: u64 = 1_234_567;
pub const PUBLISHED_SHOT: u64 = 18;
pub const PUBLISHED_LEG: usize = 54_919;

/// Published outputs, the first five.
pub const PUBLISHED: [u64; 5] = [
    6_457_827_717_110_365_317,
    3_203_168_211_198_807_973,
    9_817_491_932_198_370_423,
    4_593_380_528_125_082_431,
    16_408_922_859_458_223_821,
];

#[derive(Clone)]
pub struct SplitMix64 {
    state: u64,
}

impl SplitMix64 {
    pub fn new(seed: u64) -> Self {
        Self { state: seed }
    }

    pub fn state(&self) -> u64 {
        self.state
    }

    pub fn draw(&mut self) -> u64 {
        self.state = self.state.wrapping_add(0x9E37_79B9_7F4A_7C15);
        let mut mixed = self.state;
        mixed = (mixed ^ (mixed >> 30)).wrapping_mul(0xBF58_476D_1CE4_E5B9);
        mixed = (mixed ^ (mixed >> 27)).wrapping_mul(0x94D0_49BB_1331_11EB);
        mixed ^ (mixed >> 31)
    }

    /// From 0 to 1, without 1: the top 53 bits times 2^-53.
    pub fn unit(&mut self) -> f64 {
        (self.draw() >> 11) as f64 * (1.0 / (1u64 << 53) as f64)
    }

    /// One of `0..bound`; the small bias of the remainder does not matter for choosing cases.
    pub fn below(&mut self, bound: usize) -> usize {
        (self.draw() % bound as u64) as usize
    }

    /// One of `low..=high`.
    pub fn between(&mut self, low: usize, high: usize) -> usize {
        low + self.below(high - low + 1)
    }

    /// True once in `times`.
    pub fn once_in(&mut self, times: usize) -> bool {
        self.below(times) == 0
    }

    pub fn pick<T: Copy>(&mut self, from: &[T]) -> T {
        from[self.below(from.len())]
    }

    /// So many bits, each 0 or 1.
    pub fn bits(&mut self, count: usize) -> Vec<u8> {
        (0..count).map(|_| self.below(2) as u8).collect()
    }

    /// So many of which each is true once in `times`.
    pub fn flags(&mut self, count: usize, times: usize) -> Vec<bool> {
        (0..count).map(|_| self.once_in(times)).collect()
    }

    pub fn shuffle<T>(&mut self, list: &mut [T]) {
        for place in (1..list.len()).rev() {
            list.swap(place, self.below(place + 1));
        }
    }

    /// Draws the first `count` places of a list out of all of it.
    pub fn draw_front<T>(&mut self, list: &mut [T], count: usize) {
        for place in 0..count {
            list.swap(place, self.between(place, list.len() - 1));
        }
    }
}

/// Where the generator of a relayed leg starts.
#[derive(Clone, Copy, Debug, PartialEq, Eq)]
pub enum Rule {
    /// At the stream number of the shot, which is the seed, and the leg.
    ByShot,
    /// At the seed xor one more than the leg.
    SeedXorLeg,
}

impl Rule {
    /// Whether it takes a seed: 27 where it does not.
    pub fn takes(self, seed: u64) -> bool {
        match self {
            Self::ByShot => seed < 1 << 48,
            Self::SeedXorLeg => true,
        }
    }

    /// The start of a leg, from 1. Of a seed that is not taken it is cut to 64 bits, and nobody draws from it.
    pub fn start(self, seed: u64, leg: u64) -> u64 {
        match self {
            Self::ByShot => (u128::from(seed) * 65_536 + u128::from(leg)) as u64,
            Self::SeedXorLeg => seed ^ (leg + 1),
        }
    }
}

/// The gamma sets of the relayed legs 1 to `legs`, as the reference draws them.
pub fn relay_sets(
    rule: Rule,
    seed: u64,
    legs: usize,
    mechanisms: usize,
    (low, high): (f64, f64),
) -> Vec<Vec<f64>> {
    (1..=legs as u64)
        .map(|leg| {
            let mut generator = SplitMix64::new(rule.start(seed, leg));
            (0..mechanisms)
                .map(|_| low + (high - low) * generator.unit())
                .collect()
        })
        .collect()
}
