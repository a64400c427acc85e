//! A small generator of numbers, the same on every machine: splitmix64.

#[derive(Debug, Clone)]
pub struct Random(u64);

impl Random {
    /// The sequence of a seed. Names keep the sequences of different uses apart.
    #[must_use]
    pub fn new(name: &str, seed: u64) -> Self {
        let start = name
            .bytes()
            .fold(seed, |hash, byte| mix(hash ^ u64::from(byte)));
        Self(start)
    }

    pub fn word(&mut self) -> u64 {
        self.0 = self.0.wrapping_add(0x9E37_79B9_7F4A_7C15);
        scramble(self.0)
    }

    /// A number below `end`, which is not 0.
    pub fn below(&mut self, end: usize) -> usize {
        (self.word() % end as u64) as usize
    }

    /// A number from `low` to `high`, both included.
    pub fn between(&mut self, low: i64, high: i64) -> i64 {
        low + (self.word() % (high - low + 1) as u64) as i64
    }

    /// True once in `times`.
    pub fn one_in(&mut self, times: usize) -> bool {
        self.below(times) == 0
    }

    /// One of these.
    pub fn pick<T: Copy>(&mut self, from: &[T]) -> T {
        from[self.below(from.len())]
    }
}

/// One step of a hash chain.
#[must_use]
pub const fn mix(hash: u64) -> u64 {
    scramble(hash.wrapping_add(0x9E37_79B9_7F4A_7C15))
}

const fn scramble(number: u64) -> u64 {
    let number = (number ^ (number >> 30)).wrapping_mul(0xBF58_476D_1CE4_E5B9);
    let number = (number ^ (number >> 27)).wrapping_mul(0x94D0_49BB_1331_11EB);
    number ^ (number >> 31)
}

#[cfg(test)]
mod tests {
    use super::Random;

    #[test]
    fn a_seed_gives_one_sequence() {
        let take = |name, seed| {
            let mut random = Random::new(name, seed);
            [random.word(), random.word(), random.word()]
        };
        assert_eq!(take("pages", 1), take("pages", 1));
        assert_ne!(take("pages", 1), take("pages", 2));
        assert_ne!(take("pages", 1), take("edges", 1));
    }

    #[test]
    fn splitmix64_is_the_published_one() {
        // The first outputs for a state of 0.
        let mut random = Random(0);
        assert_eq!(random.word(), 0xE220_A839_7B1D_CDAF);
        assert_eq!(random.word(), 0x6E78_9E6A_A1B9_65F4);
    }
}
