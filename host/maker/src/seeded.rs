//! The source of chance.

/// The splitmix64 generator (Steele, Lea, Flood 2014).
#[derive(Clone, Debug)]
pub struct Seeded(u64);

impl Seeded {
    /// A generator that gives the numbers of this seed.
    pub fn new(seed: u64) -> Seeded {
        Seeded(seed)
    }

    /// The next number.
    pub fn number(&mut self) -> u64 {
        self.0 = self.0.wrapping_add(0x9E37_79B9_7F4A_7C15);
        let mut z = self.0;
        z = (z ^ (z >> 30)).wrapping_mul(0xBF58_476D_1CE4_E5B9);
        z = (z ^ (z >> 27)).wrapping_mul(0x94D0_49BB_1331_11EB);
        z ^ (z >> 31)
    }

    /// A number below `bound`, which must not be 0.
    pub fn below(&mut self, bound: usize) -> usize {
        (self.number() % bound as u64) as usize
    }

    /// A number from `low` to `high`, both included.
    pub fn between(&mut self, low: usize, high: usize) -> usize {
        low + self.below(high - low + 1)
    }

    /// Once in `times`, on average.
    pub fn one_in(&mut self, times: usize) -> bool {
        self.below(times) == 0
    }

    /// One of several, which must not be none.
    pub fn pick<T: Copy>(&mut self, of: &[T]) -> T {
        of[self.below(of.len())]
    }

    /// Any byte.
    pub fn byte(&mut self) -> u8 {
        self.number() as u8
    }

    /// So many bytes.
    pub fn bytes(&mut self, length: usize) -> Vec<u8> {
        (0..length).map(|_| self.byte()).collect()
    }

    /// So many words of any 16 bits.
    pub fn words(&mut self, length: usize) -> Vec<u16> {
        (0..length).map(|_| self.number() as u16).collect()
    }
}

#[cfg(test)]
mod tests {
    use super::*;

    /// The first numbers of seed 0 and of seed 1234567, as published with other implementations
    /// of splitmix64.
    #[test]
    fn published_numbers() {
        let mut zero = Seeded::new(0);
        assert_eq!(zero.number(), 0xE220_A839_7B1D_CDAF);
        assert_eq!(zero.number(), 0x6E78_9E6A_A1B9_65F4);
        assert_eq!(zero.number(), 0x06C4_5D18_8009_454F);
        let mut other = Seeded::new(1_234_567);
        assert_eq!(other.number(), 6_457_827_717_110_365_317);
        assert_eq!(other.number(), 3_203_168_211_198_807_973);
        assert_eq!(other.number(), 9_817_491_932_198_370_423);
    }
}
