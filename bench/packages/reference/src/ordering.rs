//! The list of pairs (document 01, "Pairs and their movement"; document 02, odd orders).
use crate::checks;
use crate::sizes::{is_odd, processors, sweep_steps, MOST_TILES};
use crate::Refusal;

/// Left and right register of each processor, lines from 1, and line 0 where the order is odd. Those above the last
/// processor are not used.
pub struct Registers {
    processors: usize,
    pairs: [(usize, usize); MOST_TILES],
}

/// Writes the pairs of a step into two lent rows of registers.
pub fn pairs(
    n: usize,
    step: usize,
    left: &mut [usize],
    right: &mut [usize],
) -> Result<(), Refusal> {
    let order = checks::order(n);
    if order.is_ok() {
        checks::room(left.len().min(right.len()), processors(n))?;
    }
    left.fill(0);
    right.fill(0);
    order?;
    let registers = Registers::at(n, step);
    let rows = left.iter_mut().zip(right);
    for (&(p, q), (left, right)) in registers.pairs().iter().zip(rows) {
        (*left, *right) = (p, q);
    }
    Ok(())
}

impl Registers {
    pub fn start(n: usize) -> Registers {
        let first = if is_odd(n) { 0 } else { 1 };
        Registers {
            processors: processors(n),
            pairs: std::array::from_fn(|k| (2 * k + first, 2 * k + 1 + first)),
        }
    }

    /// The registers in a step, from 0. They repeat every sweep.
    pub fn at(n: usize, step: usize) -> Registers {
        let mut registers = Registers::start(n);
        for _ in 0..step % sweep_steps(n) {
            registers.step();
        }
        registers
    }

    pub fn pairs(&self) -> &[(usize, usize)] {
        &self.pairs[..self.processors]
    }

    /// The pairs of two real lines: all but that of line 0, where there is one.
    pub fn real_pairs(&self) -> &[(usize, usize)] {
        match self.pairs() {
            [(0, _), rest @ ..] => rest,
            all => all,
        }
    }

    /// The movement after a step: right 1 goes to left 2, left k to left k + 1, the last left to its right, and right k
    /// to right k - 1.
    pub fn step(&mut self) {
        let last = self.processors - 1;
        if last == 0 {
            return;
        }
        let (first_right, last_left) = (self.pairs[0].1, self.pairs[last].0);
        for k in (2..=last).rev() {
            self.pairs[k].0 = self.pairs[k - 1].0;
        }
        for k in 0..last {
            self.pairs[k].1 = self.pairs[k + 1].1;
        }
        self.pairs[1].0 = first_right;
        self.pairs[last].1 = last_left;
    }
}
