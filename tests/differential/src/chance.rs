//! A small source of chance: the same numbers for the same seed everywhere.

pub struct Chance(u64);

impl Chance {
    /// Each history has its own numbers, so that one can be run again alone.
    pub fn new(seed: u64, history: u64) -> Chance {
        let mut chance = Chance(
            seed.wrapping_mul(0x9E37_79B9_7F4A_7C15) ^ history.wrapping_mul(0xD6E8_FEB8_6659_FD93),
        );
        chance.next();
        chance
    }

    /// splitmix64
    pub fn next(&mut self) -> u64 {
        self.0 = self.0.wrapping_add(0x9E37_79B9_7F4A_7C15);
        let mut mixed = self.0;
        mixed = (mixed ^ (mixed >> 30)).wrapping_mul(0xBF58_476D_1CE4_E5B9);
        mixed = (mixed ^ (mixed >> 27)).wrapping_mul(0x94D0_49BB_1331_11EB);
        mixed ^ (mixed >> 31)
    }

    /// From 0 up to, not including, `below`.
    pub fn below(&mut self, below: usize) -> usize {
        ((self.next() >> 33) as usize) % below
    }

    /// From `least` to `most`, both included.
    pub fn between(&mut self, least: usize, most: usize) -> usize {
        least + self.below(most - least + 1)
    }

    pub fn once_in(&mut self, times: usize) -> bool {
        self.below(times) == 0
    }

    pub fn of<T: Copy>(&mut self, all: &[T]) -> T {
        all[self.below(all.len())]
    }

    pub fn byte(&mut self) -> u8 {
        (self.next() >> 40) as u8
    }

    pub fn bytes(&mut self, length: usize) -> Vec<u8> {
        let mut bytes = Vec::with_capacity(length + 7);
        while bytes.len() < length {
            bytes.extend(self.next().to_le_bytes());
        }
        bytes.truncate(length);
        bytes
    }
}
