//! A small generator for tables and asks.
//! It shares nothing with the item hash, so that a fault there moves no input.

pub struct Gen(u64);

impl Gen {
    pub fn new(start: u64) -> Gen {
        // The state must never be 0.
        let mut gen = Gen(start.wrapping_mul(0xA24BAED4963EE407) | 1);
        for _ in 0..8 {
            gen.next();
        }
        gen
    }

    pub fn next(&mut self) -> u64 {
        self.0 ^= self.0 << 13;
        self.0 ^= self.0 >> 7;
        self.0 ^= self.0 << 17;
        self.0.wrapping_mul(0x2545F4914F6CDD1D)
    }

    pub fn below(&mut self, limit: u64) -> u64 {
        (self.next() >> 1) % limit
    }

    /// n different keys in rising order, each drawn by `draw`.
    pub fn rising(&mut self, n: usize, draw: impl Fn(&mut Gen) -> u64) -> Vec<u64> {
        let mut keys = std::collections::BTreeSet::new();
        while keys.len() < n {
            keys.insert(draw(self));
        }
        keys.into_iter().collect()
    }
}
