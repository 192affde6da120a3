//! A small deterministic generator (SplitMix64), so that any case can be made
//! again from its seed.

#[derive(Clone)]
pub struct Random {
    state: u64,
}

const STRIDE: u64 = 0x9E37_79B9_7F4A_7C15;

impl Random {
    pub fn new(seed: u64) -> Self {
        Random { state: seed }
    }

    /// The generator of one case: each case has its own, so that a case does
    /// not depend on how much the ones before it drew.
    pub fn of_case(seed: u64, case: u64) -> Self {
        let mut of_seed = Random::new(seed);
        let start = of_seed.word() ^ case.wrapping_mul(STRIDE);
        Random::new(Random::new(start).word())
    }

    pub fn word(&mut self) -> u64 {
        self.state = self.state.wrapping_add(STRIDE);
        let mut word = self.state;
        word = (word ^ (word >> 30)).wrapping_mul(0xBF58_476D_1CE4_E5B9);
        word = (word ^ (word >> 27)).wrapping_mul(0x94D0_49BB_1331_11EB);
        word ^ (word >> 31)
    }

    /// A number below `limit`, which is at least 1.
    pub fn below(&mut self, limit: usize) -> usize {
        (self.word() % limit as u64) as usize
    }

    /// A number from `low` to `high`, both included.
    pub fn between(&mut self, low: usize, high: usize) -> usize {
        low + self.below(high - low + 1)
    }

    /// True in `percent` of a hundred draws.
    pub fn chance(&mut self, percent: usize) -> bool {
        self.below(100) < percent
    }

    pub fn bit(&mut self) -> u8 {
        (self.word() >> 63) as u8
    }

    pub fn byte(&mut self) -> u8 {
        (self.word() >> 56) as u8
    }

    pub fn bytes(&mut self, count: usize) -> Vec<u8> {
        (0..count).map(|_| self.byte()).collect()
    }

    pub fn pick<T: Copy>(&mut self, choices: &[T]) -> T {
        choices[self.below(choices.len())]
    }
}

#[cfg(test)]
mod tests {
    use super::*;

    #[test]
    fn draws_the_published_sequence() {
        let mut random = Random::new(1_234_567);
        assert_eq!(random.word(), 6_457_827_717_110_365_317);
        assert_eq!(random.word(), 3_203_168_211_198_807_973);
    }

    #[test]
    fn cases_differ() {
        let firsts: std::collections::BTreeSet<u64> = (0..1_000)
            .map(|case| Random::of_case(7, case).word())
            .collect();
        assert_eq!(firsts.len(), 1_000);
    }
}
