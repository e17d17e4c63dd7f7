//! The seeded generator of numbers: a 64-bit xorshift.

use std::num::NonZeroU64;

#[derive(Clone)]
pub struct Random {
    state: u64,
}

impl Random {
    /// A state of 0 would stay 0 for ever, so no such seed is taken.
    pub fn new(seed: NonZeroU64) -> Self {
        Random { state: seed.get() }
    }

    /// A generator for the `index`th of many runs. Neighbouring seeds give
    /// similar first numbers, so seed and index are stirred well before use.
    pub fn stirred(seed: u64, index: u64) -> Self {
        let mut mixed = seed ^ index.wrapping_mul(0x9e37_79b9_7f4a_7c15);
        mixed = (mixed ^ mixed >> 30).wrapping_mul(0xbf58_476d_1ce4_e5b9);
        mixed = (mixed ^ mixed >> 27).wrapping_mul(0x94d0_49bb_1331_11eb);
        mixed ^= mixed >> 31;
        Random::new(NonZeroU64::new(mixed).unwrap_or(NonZeroU64::MIN))
    }

    #[inline]
    pub fn draw(&mut self) -> u64 {
        self.state ^= self.state << 13;
        self.state ^= self.state >> 7;
        self.state ^= self.state << 17;
        self.state
    }

    /// A number below `bound`, which is not 0.
    pub fn below(&mut self, bound: usize) -> usize {
        // The high half is the better mixed one.
        ((self.draw() >> 32) % bound as u64) as usize
    }

    /// A number from `least` to `most`, both included.
    pub fn between(&mut self, least: usize, most: usize) -> usize {
        least + self.below(most - least + 1)
    }

    /// True in `percent` of a hundred cases.
    pub fn chance(&mut self, percent: usize) -> bool {
        self.below(100) < percent
    }

    /// One of the choices, which are not empty.
    pub fn pick<T: Copy>(&mut self, choices: &[T]) -> T {
        choices[self.below(choices.len())]
    }
}

#[cfg(test)]
mod tests {
    use super::*;

    #[test]
    fn the_first_number_from_seed_1() {
        // 1 ^ 1<<13 = 0x2001; 0x2001 ^ 0x2001>>7 = 0x2041;
        // 0x2041 ^ 0x2041<<17 = 0x40822041.
        let mut random = Random::new(NonZeroU64::MIN);
        assert_eq!(random.draw(), 0x4082_2041);
    }
}
