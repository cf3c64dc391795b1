//! Splitmix64: the same draws from the same seed, on every build.

pub struct Draws(u64);

impl Draws {
    pub fn from_seed(seed: u64) -> Draws {
        Draws(seed)
    }

    fn next(&mut self) -> u64 {
        self.0 = self.0.wrapping_add(0x9E37_79B9_7F4A_7C15);
        let mut z = self.0;
        z = (z ^ (z >> 30)).wrapping_mul(0xBF58_476D_1CE4_E5B9);
        z = (z ^ (z >> 27)).wrapping_mul(0x94D0_49BB_1331_11EB);
        z ^ (z >> 31)
    }

    pub fn below(&mut self, bound: u32) -> u32 {
        (((self.next() >> 32) * u64::from(bound)) >> 32) as u32
    }

    pub fn between(&mut self, (least, most): (u32, u32)) -> u32 {
        least + self.below(most - least + 1)
    }

    pub fn one_in(&mut self, bound: u32) -> bool {
        self.below(bound) == 0
    }

    pub fn pick<T: Copy>(&mut self, from: &[T]) -> T {
        from[self.below(from.len() as u32) as usize]
    }

    /// An index, each as often as its weight says.
    pub fn weighted(&mut self, weights: &[u32]) -> usize {
        let mut rest = self.below(weights.iter().sum());
        let past = |weight: &u32| {
            let hit = rest < *weight;
            rest = rest.saturating_sub(*weight);
            hit
        };
        weights.iter().position(past).expect("a weight above 0")
    }

    /// Numbers of few bits as often as numbers of many: every length that a number can have in a record.
    pub fn of_any_length(&mut self) -> u32 {
        match self.below(34) {
            33 => u32::MAX,
            bits => (self.next() & ((1 << bits) - 1)) as u32,
        }
    }
}
