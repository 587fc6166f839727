//! Random numbers from a seed that is printed and can be given.

/// The numbers of one seed.
pub struct Random(u64);

impl Random {
    /// The numbers of a test: from the seed in CONCORDANCE_SEED, or 1, and the test's name.
    pub fn of(test: &str) -> Random {
        let given = std::env::var("CONCORDANCE_SEED").ok();
        let seed: u64 = given.map_or(1, |text| text.parse().expect("CONCORDANCE_SEED is a number"));
        println!("{test}: CONCORDANCE_SEED={seed}");
        let mut numbers = Random(seed.wrapping_mul(0x9E37_79B9_7F4A_7C15));
        for byte in test.bytes() {
            numbers.0 = numbers.next() ^ u64::from(byte);
        }
        numbers
    }

    /// The next number: SplitMix64.
    pub fn next(&mut self) -> u64 {
        self.0 = self.0.wrapping_add(0x9E37_79B9_7F4A_7C15);
        let mut z = self.0;
        z = (z ^ (z >> 30)).wrapping_mul(0xBF58_476D_1CE4_E5B9);
        z = (z ^ (z >> 27)).wrapping_mul(0x94D0_49BB_1331_11EB);
        z ^ (z >> 31)
    }

    /// A number below a bound above 0.
    pub fn below(&mut self, bound: usize) -> usize {
        (self.next() % bound as u64) as usize
    }

    /// A number from a first to a last.
    pub fn between(&mut self, first: usize, last: usize) -> usize {
        first + self.below(last - first + 1)
    }

    /// Whether one of so many times.
    pub fn once_in(&mut self, times: usize) -> bool {
        self.below(times) == 0
    }

    /// One of some values.
    pub fn one_of<T: Copy>(&mut self, values: &[T]) -> T {
        values[self.below(values.len())]
    }
}
