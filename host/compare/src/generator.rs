//! The numbers that a seed stands for: splitmix64, which needs no table and no
//! crate, and gives the same numbers on every machine.

/// The odd step of splitmix64.
const STEP: u64 = 0x9E37_79B9_7F4A_7C15;

pub struct Generator {
    state: u64,
}

impl Generator {
    pub fn new(seed: u64) -> Generator {
        Generator { state: seed }
    }

    /// The generator of the script with this number within a seed, so that one
    /// script can be made again without those before it.
    pub fn of_script(seed: u64, number: u64) -> Generator {
        let mut outer = Generator::new(seed);
        let mut inner = Generator::new(outer.next() ^ number.wrapping_mul(STEP));
        Generator::new(inner.next())
    }

    /// splitmix64: add the step, then mix.
    #[allow(clippy::should_implement_trait)]
    pub fn next(&mut self) -> u64 {
        self.state = self.state.wrapping_add(STEP);
        let mut z = self.state;
        z = (z ^ (z >> 30)).wrapping_mul(0xBF58_476D_1CE4_E5B9);
        z = (z ^ (z >> 27)).wrapping_mul(0x94D0_49BB_1331_11EB);
        z ^ (z >> 31)
    }

    /// A number from 0 to `end` - 1. The remainder's slight slant does no harm.
    pub fn below(&mut self, end: usize) -> usize {
        (self.next() % end as u64) as usize
    }

    /// A number from `least` to `most`, both included.
    pub fn between(&mut self, least: u32, most: u32) -> u32 {
        let width = u64::from(most) - u64::from(least) + 1;
        (u64::from(least) + self.next() % width) as u32
    }

    pub fn pick<T: Copy>(&mut self, from: &[T]) -> T {
        from[self.below(from.len())]
    }

    /// True once in `count` times.
    pub fn one_in(&mut self, count: usize) -> bool {
        self.below(count) == 0
    }
}

#[cfg(test)]
mod tests {
    use super::*;

    #[test]
    fn the_numbers_are_those_of_splitmix64() {
        // The published first numbers for the seed 1234567.
        let mut g = Generator::new(1_234_567);
        assert_eq!(g.next(), 6_457_827_717_110_365_317);
        assert_eq!(g.next(), 3_203_168_211_198_807_973);
    }

    #[test]
    fn both_ends_of_a_range_are_reached_and_nothing_outside() {
        let mut g = Generator::new(7);
        let seen: Vec<u32> = (0..1000).map(|_| g.between(3, 6)).collect();
        for value in 3..=6 {
            assert!(seen.contains(&value));
        }
        assert!(seen.iter().all(|value| (3..=6).contains(value)));
        assert!(g.between(0, u32::MAX) != g.between(0, u32::MAX));
    }

    #[test]
    fn scripts_of_one_seed_and_of_two_seeds_differ() {
        let first = Generator::of_script(1, 0).next();
        assert_eq!(first, Generator::of_script(1, 0).next());
        assert_ne!(first, Generator::of_script(1, 1).next());
        assert_ne!(first, Generator::of_script(2, 0).next());
    }
}
