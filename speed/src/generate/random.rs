//! The source of all choices: splitmix64.

use std::ops::RangeInclusive;

pub struct Random {
    state: u64,
}

impl Random {
    pub fn new(seed: u64) -> Self {
        Random { state: seed }
    }

    pub fn draw(&mut self) -> u64 {
        self.state = self.state.wrapping_add(0x9E37_79B9_7F4A_7C15);
        let mut z = self.state;
        z = (z ^ z >> 30).wrapping_mul(0xBF58_476D_1CE4_E5B9);
        z = (z ^ z >> 27).wrapping_mul(0x94D0_49BB_1331_11EB);
        z ^ z >> 31
    }

    /// A number below the limit, which isn't 0.
    pub fn below(&mut self, limit: usize) -> usize {
        (self.draw() % limit as u64) as usize
    }

    pub fn within(&mut self, range: RangeInclusive<u32>) -> u32 {
        let wide = u64::from(*range.end() - *range.start()) + 1;
        range.start() + (self.draw() % wide) as u32
    }

    pub fn one_in(&mut self, cases: usize) -> bool {
        self.below(cases) == 0
    }

    pub fn pick<T: Copy>(&mut self, from: &[T]) -> T {
        from[self.below(from.len())]
    }

    /// No fault half the time, else one alone or two different ones, in the order of their kinds.
    pub fn faults<T: Copy>(&mut self, kinds: &[T]) -> Vec<T> {
        let first = self.below(kinds.len());
        let second = (first + 1 + self.below(kinds.len() - 1)) % kinds.len();
        match self.below(4) {
            0 => vec![kinds[first]],
            1 => vec![kinds[first.min(second)], kinds[first.max(second)]],
            _ => vec![],
        }
    }
}
