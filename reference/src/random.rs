//! A small seeded generator of random numbers (the mixing of splitmix64), so
//! that every case can be made again from its seed.

pub struct Random {
    state: u64,
}

impl Random {
    pub fn new(seed: u64) -> Self {
        Random { state: seed }
    }

    /// A generator for one case of many, the same whatever was drawn before.
    pub fn for_case(seed: u64, index: u64) -> Self {
        let mut mixed = Random::new(seed);
        let start = mixed.next();
        Random::new(start ^ index.wrapping_mul(0xD1B5_4A32_D192_ED03))
    }

    pub fn next(&mut self) -> u64 {
        self.state = self.state.wrapping_add(0x9E37_79B9_7F4A_7C15);
        let mut z = self.state;
        z = (z ^ (z >> 30)).wrapping_mul(0xBF58_476D_1CE4_E5B9);
        z = (z ^ (z >> 27)).wrapping_mul(0x94D0_49BB_1331_11EB);
        z ^ (z >> 31)
    }

    /// A number from 0 to `count` - 1; 0 if the count is 0.
    pub fn below(&mut self, count: usize) -> usize {
        ((u128::from(self.next()) * count as u128) >> 64) as usize
    }

    /// A number from `low` to `high`, both included.
    pub fn between(&mut self, low: i64, high: i64) -> i64 {
        let count = (i128::from(high) - i128::from(low) + 1).max(1) as u128;
        let offset = (u128::from(self.next()) * count) >> 64;
        (i128::from(low) + offset as i128) as i64
    }

    /// True this often in a hundred times.
    pub fn percent(&mut self, chance: u32) -> bool {
        self.next() % 100 < u64::from(chance)
    }

    /// One of these; `otherwise` of an empty list.
    pub fn pick<T: Clone>(&mut self, list: &[T], otherwise: T) -> T {
        list.get(self.below(list.len())).cloned().unwrap_or(otherwise)
    }

    /// One of these, by an array that can't be empty.
    pub fn one_of<T: Clone, const N: usize>(&mut self, list: [T; N]) -> T {
        const { assert!(N > 0) };
        list[self.below(N)].clone()
    }

    /// A number above zero of a random length in bits, at most `bits`.
    pub fn of_any_length(&mut self, bits: u32) -> u64 {
        let length = 1 + self.below(bits.clamp(1, 64) as usize) as u32;
        let highest = 1 << (length - 1);
        highest | (self.next() & (highest - 1))
    }
}
