//! Draws by a seed: values, and what calls are lent.
#![forbid(unsafe_code)]

mod joinings;
mod matrices;
mod records;
mod sheets;
mod sizes;
mod values;

pub use joinings::Joining;
pub use matrices::Lent;
pub use sheets::{read_lent, sheet, text, Contents};

/// Marsaglia's xorshift generator.
pub struct Random(u64);

impl Random {
    /// The seed is above 0.
    pub fn new(seed: u64) -> Random {
        assert!(seed > 0, "the seed is above 0");
        Random(seed)
    }

    pub fn word(&mut self) -> u64 {
        self.0 ^= self.0 << 13;
        self.0 ^= self.0 >> 7;
        self.0 ^= self.0 << 17;
        self.0
    }

    /// A number below `limit`, which is small.
    pub fn below(&mut self, limit: usize) -> usize {
        ((self.word() >> 32) as usize) % limit
    }

    /// True in one case of `count`.
    pub fn one_in(&mut self, count: usize) -> bool {
        self.below(count) == 0
    }

    pub fn among<T: Copy>(&mut self, all: &[T]) -> T {
        all[self.below(all.len())]
    }
}
