//! A seeded source of numbers (splitmix64), so that every case can be made again.

pub struct Random {
    state: u64,
}

impl Random {
    /// Case `number` of a seed does not depend on the cases before it.
    pub fn new(seed: u64, number: u64) -> Self {
        let mut random = Random { state: seed };
        random.state = random.number() ^ number.wrapping_mul(0xd134_2543_de82_ef95);
        random
    }

    pub fn number(&mut self) -> u64 {
        self.state = self.state.wrapping_add(0x9e37_79b9_7f4a_7c15);
        let mixed = (self.state ^ self.state >> 30).wrapping_mul(0xbf58_476d_1ce4_e5b9);
        let mixed = (mixed ^ mixed >> 27).wrapping_mul(0x94d0_49bb_1331_11eb);
        mixed ^ mixed >> 31
    }

    /// From 0 up to `bound`, which is left out.
    pub fn below(&mut self, bound: usize) -> usize {
        (self.number() % bound as u64) as usize
    }

    pub fn between(&mut self, least: usize, most: usize) -> usize {
        least + self.below(most - least + 1)
    }

    pub fn chance(&mut self, percent: usize) -> bool {
        self.below(100) < percent
    }

    pub fn pick<T: Copy>(&mut self, from: &[T]) -> T {
        from[self.below(from.len())]
    }
}
