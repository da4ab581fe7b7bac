//! Numbers by chance, the same on every run, for the tests.

const STEP: u64 = 0x9E37_79B9_7F4A_7C15;

/// The n-th of some numbers that look random; its high bits are the better ones.
pub fn mixed(n: usize) -> u64 {
    (n as u64 + 1).wrapping_mul(STEP)
}

/// Numbers below a limit: the generator splitmix64.
pub struct Chance(pub u64);

impl Chance {
    pub fn below(&mut self, limit: u32) -> u32 {
        self.0 = self.0.wrapping_add(STEP);
        let mut z = self.0;
        z = (z ^ (z >> 30)).wrapping_mul(0xBF58_476D_1CE4_E5B9);
        z = (z ^ (z >> 27)).wrapping_mul(0x94D0_49BB_1331_11EB);
        (z ^ (z >> 31)) as u32 % limit
    }

    pub fn one_of<T: Copy>(&mut self, choices: &[T]) -> T {
        choices[self.below(choices.len() as u32) as usize]
    }
}
