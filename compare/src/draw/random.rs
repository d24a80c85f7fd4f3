//! Random numbers that the same seed gives again.

/// The generator splitmix64.
pub struct Random(u64);

impl Random {
    /// The numbers of one input of a seed.
    pub fn new(seed: u64, n: u64) -> Random {
        let mut random = Random(seed);
        random.0 = random.word() ^ n;
        random.word();
        random
    }

    pub fn word(&mut self) -> u64 {
        self.0 = self.0.wrapping_add(0x9e37_79b9_7f4a_7c15);
        let mut z = self.0;
        z = (z ^ z >> 30).wrapping_mul(0xbf58_476d_1ce4_e5b9);
        z = (z ^ z >> 27).wrapping_mul(0x94d0_49bb_1331_11eb);
        z ^ z >> 31
    }

    /// A number below `n`, which is not 0.
    pub fn below(&mut self, n: usize) -> usize {
        (self.word() % n as u64) as usize
    }

    /// A number from `least` to `most`.
    pub fn between(&mut self, least: usize, most: usize) -> usize {
        least + self.below(most - least + 1)
    }

    /// True so many times in a hundred.
    pub fn percent(&mut self, chance: usize) -> bool {
        self.below(100) < chance
    }

    /// One of the things, of which there is at least one.
    pub fn pick<T: Copy>(&mut self, things: &[T]) -> T {
        things[self.below(things.len())]
    }

    /// One of the things, or else another.
    pub fn pick_or<T: Copy>(&mut self, things: &[T], other: T) -> T {
        if things.is_empty() { other } else { self.pick(things) }
    }

    pub fn shuffle<T>(&mut self, things: &mut [T]) {
        for i in (1..things.len()).rev() {
            things.swap(i, self.below(i + 1));
        }
    }

    /// So many of the things, or all, in their order.
    pub fn sample<T: Copy + Ord>(&mut self, things: impl Iterator<Item = T>, count: usize) -> Vec<T> {
        let mut things: Vec<T> = things.collect();
        self.shuffle(&mut things);
        things.truncate(count);
        things.sort_unstable();
        things
    }
}
