//! A small seeded generator (splitmix64). The same seed gives the same numbers everywhere.

pub struct Rng(u64);

impl Rng {
    pub fn new(seed: u64) -> Rng {
        Rng(seed)
    }

    /// The next 64 bits.
    pub fn bits(&mut self) -> u64 {
        self.0 = self.0.wrapping_add(0x9E37_79B9_7F4A_7C15);
        let mut z = self.0;
        z = (z ^ (z >> 30)).wrapping_mul(0xBF58_476D_1CE4_E5B9);
        z = (z ^ (z >> 27)).wrapping_mul(0x94D0_49BB_1331_11EB);
        z ^ (z >> 31)
    }

    /// From `low` to `high`, both included. The slight bias does not matter for tests.
    pub fn range(&mut self, low: i128, high: i128) -> i128 {
        low + i128::from(self.bits()) % (high - low + 1)
    }

    /// The same for indices and counts.
    pub fn index(&mut self, low: usize, high: usize) -> usize {
        self.range(low as i128, high as i128) as usize
    }

    /// True in about `percent` of a hundred calls.
    pub fn chance(&mut self, percent: i128) -> bool {
        self.range(0, 99) < percent
    }

    /// One of the items; `items` is not empty.
    pub fn pick<'a, T>(&mut self, items: &'a [T]) -> &'a T {
        &items[self.index(0, items.len() - 1)]
    }

    pub fn shuffle<T>(&mut self, items: &mut [T]) {
        for last in (1..items.len()).rev() {
            items.swap(last, self.index(0, last));
        }
    }
}
