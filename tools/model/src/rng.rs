//! A small random number generator (splitmix64), the same numbers from the same seed.

#[derive(Clone, Debug)]
pub struct Rng(u64);

impl Rng {
    pub fn new(seed: u64) -> Rng {
        Rng(seed)
    }

    /// The generator of one case of a seed.
    pub fn for_case(seed: u64, case: u64) -> Rng {
        let mut mixed = Rng(seed);
        let base = mixed.draw();
        Rng(base ^ case.wrapping_mul(0xD134_2543_DE82_EF95))
    }

    pub fn draw(&mut self) -> u64 {
        self.0 = self.0.wrapping_add(0x9E37_79B9_7F4A_7C15);
        let mut z = self.0;
        z = (z ^ (z >> 30)).wrapping_mul(0xBF58_476D_1CE4_E5B9);
        z = (z ^ (z >> 27)).wrapping_mul(0x94D0_49BB_1331_11EB);
        z ^ (z >> 31)
    }

    /// 0 to count − 1.
    pub fn below(&mut self, count: u64) -> u64 {
        self.draw() % count
    }

    /// low to high, both included.
    pub fn between(&mut self, low: i64, high: i64) -> i64 {
        low + self.below((high - low) as u64 + 1) as i64
    }

    /// True in this many of 100.
    pub fn chance(&mut self, percent: u64) -> bool {
        self.below(100) < percent
    }

    pub fn pick<T: Copy>(&mut self, list: &[T]) -> T {
        list[self.below(list.len() as u64) as usize]
    }

    /// An index, each as often as its weight says.
    pub fn weighted(&mut self, weights: &[u64]) -> usize {
        let mut place = self.below(weights.iter().sum());
        for (i, &weight) in weights.iter().enumerate() {
            if place < weight {
                return i;
            }
            place -= weight;
        }
        unreachable!()
    }

    /// Any value of a range, often an end or next to one.
    pub fn ends(&mut self, low: i64, high: i64) -> i64 {
        let near = self.between(0, 2.min(high - low));
        match self.below(4) {
            0 => low + near,
            1 => high - near,
            _ => self.between(low, high),
        }
    }
}
