//! Random numbers from a seed (splitmix64), so that every run can be repeated.

pub struct Random(u64);

impl Random {
    pub fn new(seed: u64) -> Self {
        Self(seed)
    }

    pub fn number(&mut self) -> u64 {
        self.0 = self.0.wrapping_add(0x9e37_79b9_7f4a_7c15);
        let mut z = self.0;
        z = (z ^ (z >> 30)).wrapping_mul(0xbf58_476d_1ce4_e5b9);
        z = (z ^ (z >> 27)).wrapping_mul(0x94d0_49bb_1331_11eb);
        z ^ (z >> 31)
    }

    pub fn below(&mut self, n: usize) -> usize {
        (self.number() % n as u64) as usize
    }

    pub fn one_in(&mut self, n: usize) -> bool {
        self.below(n) == 0
    }

    pub fn of<T: Copy>(&mut self, choices: &[T]) -> T {
        choices[self.below(choices.len())]
    }

    pub fn shuffle<T>(&mut self, list: &mut [T]) {
        for i in (1..list.len()).rev() {
            list.swap(i, self.below(i + 1));
        }
    }

    /// An area term: zeros, few values that tie, a small one, or any between −1 and 1.
    pub fn term(&mut self) -> f64 {
        match self.below(16) {
            0 => 0.,
            1 => -0.,
            2 => 0.25,
            3 => -0.25,
            4 => f64::from_bits((self.number() & !(0x7ff << 52)) | (0x3c0 << 52)),
            _ => (self.number() >> 11) as f64 / (1_u64 << 52) as f64 - 1.,
        }
    }
}
