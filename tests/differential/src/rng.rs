//! A small generator of pseudo-random numbers (splitmix64). Each case has its own, made from the seed and the case number.

pub struct Rng(u64);

fn mix(mut z: u64) -> u64 {
    z = (z ^ (z >> 30)).wrapping_mul(0xbf58_476d_1ce4_e5b9);
    z = (z ^ (z >> 27)).wrapping_mul(0x94d0_49bb_1331_11eb);
    z ^ (z >> 31)
}

impl Rng {
    pub fn new(seed: u64, case: u64) -> Rng {
        Rng(mix(mix(seed ^ 0x6a09_e667_f3bc_c908).wrapping_add(case)))
    }

    pub fn word(&mut self) -> u64 {
        self.0 = self.0.wrapping_add(0x9e37_79b9_7f4a_7c15);
        mix(self.0)
    }

    /// A number from 0 to `bound` - 1.
    pub fn below(&mut self, bound: usize) -> usize {
        (self.word() % bound as u64) as usize
    }

    /// A number from `low` to `high`, both included.
    pub fn from_to(&mut self, low: usize, high: usize) -> usize {
        low + self.below(high - low + 1)
    }

    /// True in `percent` of 100 calls.
    pub fn chance(&mut self, percent: usize) -> bool {
        self.below(100) < percent
    }

    pub fn pick<T: Copy>(&mut self, choices: &[T]) -> T {
        choices[self.below(choices.len())]
    }

    pub fn octet(&mut self) -> u8 {
        self.word() as u8
    }

    pub fn octets(&mut self, length: usize) -> Vec<u8> {
        let mut octets = Vec::with_capacity(length + 8);
        while octets.len() < length {
            octets.extend(self.word().to_le_bytes());
        }
        octets.truncate(length);
        octets
    }

    /// A number of a random width, so that small ones and those near powers of two are frequent.
    pub fn number(&mut self) -> u64 {
        let bits = self.below(65) as u32;
        let number = match bits {
            0 => 0,
            _ => self.word() >> (64 - bits),
        };
        let edge = 1u64.checked_shl(bits).unwrap_or(0);
        match self.below(8) {
            0 => edge,
            1 => edge.wrapping_sub(1),
            2 => edge.wrapping_add(1),
            _ => number,
        }
    }
}
