//! Draws of orders, sweeps, steps and lengths.
use crate::Random;
use reference::sizes::{MOST_LINES, MOST_SWEEPS};

/// Orders that are refused. Some would pass if their upper bits or the overflow of their square were lost.
const WRONG_ORDERS: [usize; 12] = [
    0,
    1,
    33,
    34,
    35,
    36,
    128 + 8,
    256 + 8,
    1 << 32,
    (1 << 32) + 4,
    usize::MAX - 1,
    usize::MAX,
];
/// Of these, those whose matrices are small enough to be lent.
const SMALL_WRONG_ORDERS: usize = 6;
const WRONG_SWEEPS: [usize; 6] = [17, 18, 256, 256 + 4, 1 << 32, usize::MAX];

impl Random {
    /// An order, of which one in eight is refused.
    pub fn order(&mut self) -> usize {
        match self.below(8) {
            0 => self.wrong_order(),
            _ => 2 + self.below(MOST_LINES - 1),
        }
    }

    pub(super) fn wrong_order(&mut self) -> usize {
        self.among(&WRONG_ORDERS)
    }

    pub(super) fn small_wrong_order(&mut self) -> usize {
        self.among(&WRONG_ORDERS[..SMALL_WRONG_ORDERS])
    }

    /// A number of sweeps, of which one in eight is refused.
    pub(super) fn sweeps(&mut self) -> usize {
        match self.below(8) {
            0 => self.wrong_sweeps(),
            _ => self.below(MOST_SWEEPS + 1),
        }
    }

    pub(super) fn wrong_sweeps(&mut self) -> usize {
        self.among(&WRONG_SWEEPS)
    }

    /// The number of a step: one of the first, or any whatever.
    pub fn step(&mut self) -> usize {
        match self.below(4) {
            0 => self.word() as usize,
            1 => usize::MAX - self.below(2 * MOST_LINES),
            _ => self.below(2 * MOST_LINES),
        }
    }

    /// A length that may be wrong: none, one less, one more, any that is less, or twice as much.
    fn wrong_length(&mut self, asked: usize) -> usize {
        match self.below(5) {
            0 => 0,
            1 => asked.saturating_sub(1),
            2 => asked + 1,
            3 => self.below(asked + 1),
            _ => 2 * asked,
        }
    }

    /// Gives lent values a length that may be wrong.
    pub(super) fn lend_wrongly<T: Copy + Default>(&mut self, values: &mut Vec<T>) {
        let length = self.wrong_length(values.len());
        values.resize(length, T::default());
    }

    /// The length of a lent buffer that may be longer than is asked for: in one case of three it may be too short.
    pub fn room(&mut self, asked: usize) -> usize {
        match self.below(6) {
            0 | 1 => self.wrong_length(asked),
            2 => asked + 1 + self.below(40),
            _ => asked,
        }
    }
}
