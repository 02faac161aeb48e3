//! Random sheets, pairs of them, damaged sheets and histories, the same for the same seed.

mod damaged;
mod histories;
mod initials;
mod limits;
mod well_formed;

pub use damaged::damaged;
pub use histories::{accepted, near_miss, run, unknown};
pub use initials::other_initials;
pub use well_formed::{large, searchable, small};

use model::sheet::PLACEHOLDERS;
use std::ops::Range;

/// A generator of numbers (splitmix64), and of sheets with so many placeholders.
pub struct Random {
    state: u64,
    placeholders: usize,
}

impl Random {
    pub fn new(seed: u64) -> Self {
        Random::with_placeholders(seed, PLACEHOLDERS)
    }

    /// Half of the sheets have placeholders, where there are any.
    pub fn with_placeholders(seed: u64, placeholders: usize) -> Self {
        Random { state: seed, placeholders }
    }

    fn next(&mut self) -> u64 {
        self.state = self.state.wrapping_add(0x9e37_79b9_7f4a_7c15);
        let mut z = self.state;
        z = (z ^ (z >> 30)).wrapping_mul(0xbf58_476d_1ce4_e5b9);
        z = (z ^ (z >> 27)).wrapping_mul(0x94d0_49bb_1331_11eb);
        z ^ (z >> 31)
    }

    /// A number below `limit`, which is above 0.
    pub fn below(&mut self, limit: usize) -> usize {
        (self.next() % limit as u64) as usize
    }

    /// A number from `low` to `high`, both included.
    pub fn between(&mut self, low: usize, high: usize) -> usize {
        low + self.below(high - low + 1)
    }

    fn inside(&mut self, range: Range<usize>) -> usize {
        range.start + self.below(range.len())
    }

    pub fn percent(&mut self, chance: usize) -> bool {
        self.below(100) < chance
    }

    pub fn pick<T: Copy>(&mut self, from: &[T]) -> T {
        from[self.below(from.len())]
    }
}
