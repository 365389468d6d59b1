//! Random numbers from a seed, the same on every machine: splitmix64.

#![forbid(unsafe_code)]

/// A stream of numbers that a seed and a name determine.
pub struct Random(u64);

impl Random {
    /// The stream of a name, so that each user of a seed draws the same numbers whether or not
    /// others drew before it.
    pub fn new(seed: u64, name: &str) -> Self {
        let mut random = Random(seed);
        for byte in name.bytes() {
            random.0 = random.number() ^ u64::from(byte);
        }
        random
    }

    fn number(&mut self) -> u64 {
        self.0 = self.0.wrapping_add(0x9E37_79B9_7F4A_7C15);
        let mut mixed = self.0;
        mixed = (mixed ^ (mixed >> 30)).wrapping_mul(0xBF58_476D_1CE4_E5B9);
        mixed = (mixed ^ (mixed >> 27)).wrapping_mul(0x94D0_49BB_1331_11EB);
        mixed ^ (mixed >> 31)
    }

    pub fn byte(&mut self) -> u8 {
        self.number().to_be_bytes()[0]
    }

    pub fn word(&mut self) -> u16 {
        u16::from_be_bytes([self.byte(), self.byte()])
    }

    /// A number from 0 up to, but not including, the limit.
    pub fn below(&mut self, limit: u32) -> u32 {
        (((self.number() >> 32) * u64::from(limit)) >> 32) as u32
    }

    /// True once in so many times.
    pub fn one_in(&mut self, times: u32) -> bool {
        self.below(times) == 0
    }

    pub fn pick<T: Copy>(&mut self, from: &[T]) -> T {
        from[self.below(from.len() as u32) as usize]
    }

    /// So many random bytes.
    pub fn bytes(&mut self, count: usize) -> Vec<u8> {
        (0..count).map(|_| self.byte()).collect()
    }
}

#[cfg(test)]
mod tests {
    use super::Random;

    #[test]
    fn seed_and_name_determine_the_stream() {
        let draw = |seed, name| Random::new(seed, name).bytes(64);
        assert_eq!(draw(1, "rows"), draw(1, "rows"));
        assert_ne!(draw(1, "rows"), draw(2, "rows"));
        assert_ne!(draw(1, "rows"), draw(1, "runs"));
    }

    /// The numbers that are published for the generator and the seed 1234567.
    #[test]
    fn the_numbers_are_splitmix64_s() {
        let mut random = Random::new(1_234_567, "");
        let drawn: Vec<u64> = (0..5).map(|_| random.number()).collect();
        let published = [
            6_457_827_717_110_365_317,
            3_203_168_211_198_807_973,
            9_817_491_932_198_370_423,
            4_593_380_528_125_082_431,
            16_408_922_859_458_223_821,
        ];
        assert_eq!(drawn, published);
    }

    #[test]
    fn below_stays_below_and_reaches_both_ends() {
        let mut random = Random::new(1, "below");
        let drawn: Vec<u32> = (0..1000).map(|_| random.below(6)).collect();
        assert!(drawn.iter().all(|number| *number < 6));
        assert!(drawn.contains(&0) && drawn.contains(&5));
    }
}
