//! A small generator of random numbers (splitmix64).

pub struct Rng(u64);

impl Rng {
    /// The numbers for one job of a seed.
    pub fn new(seed: u64, job: u64) -> Self {
        let mut rng = Self(seed.wrapping_mul(0x9E37_79B9_7F4A_7C15));
        let start = rng.next();
        Self(start ^ job.wrapping_mul(0xD134_2543_DE82_EF95))
    }

    /// Other numbers, which leave those to come as they are. With these the
    /// jobs that are timed stay as they were first drawn.
    pub fn aside(&self) -> Self {
        self.apart(7)
    }

    /// The same for another use.
    pub fn apart(&self, number: u64) -> Self {
        Self::new(self.0, number)
    }

    fn next(&mut self) -> u64 {
        self.0 = self.0.wrapping_add(0x9E37_79B9_7F4A_7C15);
        let mut z = self.0;
        z = (z ^ (z >> 30)).wrapping_mul(0xBF58_476D_1CE4_E5B9);
        z = (z ^ (z >> 27)).wrapping_mul(0x94D0_49BB_1331_11EB);
        z ^ (z >> 31)
    }

    pub fn field(&mut self) -> u32 {
        self.next() as u32
    }

    /// A number below `count`, which is not 0.
    pub fn below(&mut self, count: usize) -> usize {
        (self.next() % count as u64) as usize
    }

    /// A number from `low` to `high`, both included.
    pub fn range(&mut self, low: usize, high: usize) -> usize {
        low + self.below(high - low + 1)
    }

    /// True in `percent` of a hundred cases.
    pub fn chance(&mut self, percent: usize) -> bool {
        self.below(100) < percent
    }

    pub fn pick<'a, T>(&mut self, list: &'a [T]) -> &'a T {
        &list[self.below(list.len())]
    }

    /// One of the things, as often as its weight says.
    pub fn weighted<T: Copy>(&mut self, list: &[(T, usize)]) -> T {
        let mut at = self.below(list.iter().map(|(_, weight)| weight).sum());
        for &(thing, weight) in list {
            if at < weight {
                return thing;
            }
            at -= weight;
        }
        unreachable!("the weights add up")
    }

    pub fn shuffle<T>(&mut self, list: &mut [T]) {
        for i in (1..list.len()).rev() {
            list.swap(i, self.below(i + 1));
        }
    }

    /// The numbers below `count` in random order.
    pub fn order(&mut self, count: usize) -> Vec<usize> {
        let mut order: Vec<usize> = (0..count).collect();
        self.shuffle(&mut order);
        order
    }
}
