//! A small seeded generator (splitmix64), so that every run tests the same.

pub struct Random(u64);

impl Random {
    pub fn seeded(seed: u64) -> Self {
        Random(seed)
    }

    fn next(&mut self) -> u64 {
        self.0 = self.0.wrapping_add(0x9E37_79B9_7F4A_7C15);
        let mut z = self.0;
        z = (z ^ (z >> 30)).wrapping_mul(0xBF58_476D_1CE4_E5B9);
        z = (z ^ (z >> 27)).wrapping_mul(0x94D0_49BB_1331_11EB);
        z ^ (z >> 31)
    }

    /// A number from `low` to `high`, both included.
    pub fn within(&mut self, low: usize, high: usize) -> usize {
        low + (self.next() % (high - low + 1) as u64) as usize
    }

    /// An index into a list of `len` elements, at least one.
    pub fn below(&mut self, len: usize) -> usize {
        self.within(0, len - 1)
    }

    pub fn character(&mut self) -> u16 {
        self.next() as u16
    }

    pub fn full_width_form(&mut self) -> u16 {
        self.within(0xFF01, 0xFF5E) as u16
    }

    pub fn one_of<T: Copy>(&mut self, choices: &[T]) -> T {
        choices[self.below(choices.len())]
    }
}
