//! Numbers that look random and are the same each time.

pub struct Dice(u64);

impl Dice {
    pub fn new(seed: u64) -> Dice {
        Dice(seed.wrapping_mul(0x9E37_79B9_7F4A_7C15) | 1)
    }

    /// From `least` to `most`, both included.
    pub fn between(&mut self, least: u32, most: u32) -> u32 {
        self.0 ^= self.0 << 13;
        self.0 ^= self.0 >> 7;
        self.0 ^= self.0 << 17;
        least + ((self.0 >> 11) % u64::from(most - least + 1)) as u32
    }

    pub fn pick(&mut self, list: &[u32]) -> u32 {
        list[self.between(0, list.len() as u32 - 1) as usize]
    }
}
