//! A shot's draws, repeated outside the archive: SplitMix64, the public algorithm, where a rule starts it, and the gamma that a draw gives.

use crate::DrawRule;

/// The generator's state.
pub(crate) struct Draws(u64);

impl Draws {
    /// Before the first gamma of relayed leg `leg`, from 1 to 65,535. By shot the seed is below 2^48.
    pub(crate) const fn of_leg(rule: DrawRule, seed: u64, leg: u64) -> Self {
        Self(match rule {
            DrawRule::ByShot => seed * 65_536 + leg,
            DrawRule::SeedXorLeg => seed ^ (leg + 1),
        })
    }

    fn draw(&mut self) -> u64 {
        self.0 = self.0.wrapping_add(0x9E37_79B9_7F4A_7C15);
        let mut mixed = self.0;
        mixed = (mixed ^ (mixed >> 30)).wrapping_mul(0xBF58_476D_1CE4_E5B9);
        mixed = (mixed ^ (mixed >> 27)).wrapping_mul(0x94D0_49BB_1331_11EB);
        mixed ^ (mixed >> 31)
    }

    /// The next gamma within an interval: the draw's top 53 bits, from 0 to below 1, stretched over it.
    pub(crate) fn gamma(&mut self, low: f64, high: f64) -> f64 {
        let unit = (self.draw() >> 11) as f64 * (1.0 / (1_u64 << 53) as f64);
        low + (high - low) * unit
    }
}

#[cfg(test)]
mod tests {
    use super::Draws;
    use crate::DrawRule::{ByShot, SeedXorLeg};

    /// The public outputs of the seed 1234567, at which leg 54,919 of shot 18 starts.
    #[test]
    fn public_outputs() {
        let mut draws = Draws::of_leg(ByShot, 18, 54_919);
        assert_eq!(draws.0, 1_234_567);
        for wanted in [
            6_457_827_717_110_365_317,
            3_203_168_211_198_807_973,
            9_817_491_932_198_370_423,
            4_593_380_528_125_082_431,
            16_408_922_859_458_223_821,
        ] {
            assert_eq!(draws.draw(), wanted);
        }
    }

    #[test]
    fn starts() {
        let start = |rule, seed, leg| Draws::of_leg(rule, seed, leg).0;
        assert_eq!(start(SeedXorLeg, 40, 1), 42);
        assert_eq!(start(SeedXorLeg, 41, 2), 42);
        assert_eq!(start(SeedXorLeg, u64::MAX, 65_535), u64::MAX - 65_536);
        assert_eq!(start(ByShot, 0, 1), 1);
        assert_eq!(start(ByShot, 0, 65_535) + 2, start(ByShot, 1, 1));
        assert_eq!(start(ByShot, (1 << 48) - 1, 65_535), u64::MAX);
    }
}
