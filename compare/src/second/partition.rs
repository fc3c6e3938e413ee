//! A partition of the numbers below a count; the lowest member names a part.

pub struct Partition {
    lowest: Vec<usize>,
}

impl Partition {
    /// Every number on its own.
    pub fn new(count: usize) -> Self {
        Self {
            lowest: (0..count).collect(),
        }
    }

    pub fn lowest(&self, i: usize) -> usize {
        self.lowest[i]
    }

    /// Unites two parts by naming all members of the one after the other.
    /// Tells whether they were separate.
    pub fn join(&mut self, a: usize, b: usize) -> bool {
        let (a, b) = (self.lowest[a], self.lowest[b]);
        let (low, high) = (a.min(b), a.max(b));
        if low == high {
            return false;
        }
        for name in &mut self.lowest {
            if *name == high {
                *name = low;
            }
        }
        true
    }
}
