//! Random numbers for tests, from a seed that is printed.
//!
//! The environment variable `COMPARE_SEED` sets another seed, in decimal.

#![forbid(unsafe_code)]
#![warn(missing_docs)]

/// The seed unless `COMPARE_SEED` gives another.
const DEFAULT_SEED: u64 = 0x5EED_0002;

/// The splitmix64 generator.
pub struct Rng(u64);

impl Rng {
    /// A generator whose seed is printed, so that a failed run can be
    /// repeated.
    ///
    /// # Panics
    ///
    /// Where `COMPARE_SEED` is set and is not a decimal number.
    pub fn announced(test: &str) -> Self {
        let seed = setting("COMPARE_SEED").unwrap_or(DEFAULT_SEED);
        println!("{test}: COMPARE_SEED={seed}");
        Rng(seed)
    }

    fn next(&mut self) -> u64 {
        self.0 = self.0.wrapping_add(0x9E37_79B9_7F4A_7C15);
        let mut z = self.0;
        z = (z ^ (z >> 30)).wrapping_mul(0xBF58_476D_1CE4_E5B9);
        z = (z ^ (z >> 27)).wrapping_mul(0x94D0_49BB_1331_11EB);
        z ^ (z >> 31)
    }

    /// A number under `bound`.
    pub fn below(&mut self, bound: usize) -> usize {
        (self.next() % bound as u64) as usize
    }

    /// True one time in `n`, on average.
    pub fn one_in(&mut self, n: usize) -> bool {
        self.below(n) == 0
    }

    /// Any byte.
    pub fn byte(&mut self) -> u8 {
        self.next() as u8
    }

    /// A byte with one bit set, among the lowest `width`.
    pub fn bit(&mut self, width: usize) -> u8 {
        1 << self.below(width)
    }

    /// Any number of 16 bits.
    pub fn word(&mut self) -> u16 {
        self.next() as u16
    }

    /// Any bytes.
    pub fn bytes(&mut self, length: usize) -> Vec<u8> {
        (0..length).map(|_| self.byte()).collect()
    }

    /// One of the items.
    pub fn pick<T: Copy>(&mut self, items: &[T]) -> T {
        items[self.below(items.len())]
    }
}

/// The decimal number in an environment variable, if it is set.
///
/// # Panics
///
/// Where it is set to anything else.
pub fn setting(name: &str) -> Option<u64> {
    let text = std::env::var(name).ok()?;
    Some(
        text.parse()
            .unwrap_or_else(|_| panic!("{name} is a decimal number, not {text}")),
    )
}
