//! A generator of our own (SplitMix64), so that a seed gives the same pictures under every version of Rust.

pub struct Random(u64);

fn mix(value: u64) -> u64 {
    let value = (value ^ (value >> 30)).wrapping_mul(0xBF58476D1CE4E5B9);
    let value = (value ^ (value >> 27)).wrapping_mul(0x94D049BB133111EB);
    value ^ (value >> 31)
}

impl Random {
    /// A stream for one picture of a run. It depends on nothing but these three numbers, so it does not matter which thread makes the
    /// picture.
    pub fn new(seed: u64, stream: u64, number: u64) -> Self {
        Random(mix(mix(mix(seed.wrapping_add(1)) ^ stream.wrapping_mul(0x9E3779B97F4A7C15)) ^ number))
    }

    pub fn next(&mut self) -> u64 {
        self.0 = self.0.wrapping_add(0x9E3779B97F4A7C15);
        mix(self.0)
    }

    /// From 0 to count - 1; count is below 2^32.
    pub fn below(&mut self, count: u64) -> u64 {
        ((self.next() >> 32) * count) >> 32
    }

    /// From low to high, both included.
    pub fn between(&mut self, low: i64, high: i64) -> i64 {
        low + self.below((high - low + 1) as u64) as i64
    }

    pub fn chance(&mut self, percent: u64) -> bool {
        self.below(100) < percent
    }

    pub fn pick<T: Copy>(&mut self, items: &[T]) -> T {
        items[self.index(items.len())]
    }

    pub fn index(&mut self, count: usize) -> usize {
        self.below(count as u64) as usize
    }
}
