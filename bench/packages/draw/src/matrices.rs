//! Draws of what a run is lent.
use crate::values::{ENTRY_KINDS, KINDS};
use crate::Random;
use reference::sizes::{MOST_LINES, MOST_SWEEPS};

/// What a run is lent. The results hold any patterns beforehand.
#[derive(Clone)]
pub struct Lent {
    pub n: usize,
    pub sweeps: usize,
    pub matrix: Vec<f64>,
    pub result: Vec<f64>,
    pub vectors: Vec<f64>,
}

/// Those from 2 on, even and odd.
const ORDERS: usize = MOST_LINES - 1;
const SWEEPS: usize = MOST_SWEEPS + 1;

impl Lent {
    /// The number of runs with every order, every number of sweeps and every kind of entries.
    pub const EACH: usize = ORDERS * SWEEPS * KINDS;

    /// A symmetric matrix with the entries drawn alike.
    pub fn drawn(
        n: usize,
        sweeps: usize,
        random: &mut Random,
        entry: impl Fn(&mut Random) -> f64,
    ) -> Lent {
        Lent::drawn_by_place(n, sweeps, random, |random, _, _| entry(random))
    }

    /// A symmetric matrix with the entries drawn by row and column, from 0, of which the column is not the larger.
    pub fn drawn_by_place(
        n: usize,
        sweeps: usize,
        random: &mut Random,
        entry: impl Fn(&mut Random, usize, usize) -> f64,
    ) -> Lent {
        let mut matrix = vec![0.0; n * n];
        for i in 0..n {
            for j in 0..=i {
                let x = entry(random, i, j);
                matrix[i * n + j] = x;
                matrix[j * n + i] = x;
            }
        }
        Lent {
            n,
            sweeps,
            matrix,
            result: random.filled(n * n),
            vectors: random.filled(n * n),
        }
    }

    /// Run number k, in turn of every order, every number of sweeps and every kind of entries.
    pub fn each(k: usize, random: &mut Random) -> Lent {
        let (n, sweeps) = (2 + k % ORDERS, k / ORDERS % SWEEPS);
        let kind = k / ORDERS / SWEEPS % KINDS;
        Lent::drawn_by_place(n, sweeps, random, |random, i, j| {
            match kind.checked_sub(ENTRY_KINDS) {
                None => random.entry(kind),
                Some(kind) => random.settling_entry(kind, i, j),
            }
        })
    }

    /// A run of the given order, with any number of sweeps and any kind of entries.
    pub(super) fn of_order(n: usize, random: &mut Random) -> Lent {
        let k = n - 2 + ORDERS * random.below(SWEEPS * KINDS);
        Lent::each(k, random)
    }

    /// Run number k, of which one in four is damaged, in one to three ways.
    pub fn any(k: usize, random: &mut Random) -> Lent {
        let mut lent = Lent::each(k, random);
        if random.one_in(4) {
            for _ in 0..=random.below(3) {
                lent.damage(random);
            }
        }
        lent
    }

    /// Damages what is lent in one of the ways that are refused before a run.
    fn damage(&mut self, random: &mut Random) {
        match random.below(10) {
            0 => self.n = random.wrong_order(),
            1 => *self = Lent::of_wrong_order(self.sweeps, random),
            2 => self.sweeps = random.wrong_sweeps(),
            3 => random.lend_wrongly(&mut self.matrix),
            4 => random.lend_wrongly(&mut self.result),
            5 => random.lend_wrongly(&mut self.vectors),
            6 | 7 => self.damage_entries(random),
            _ => self.damage_mirrors(random),
        }
    }

    /// An order that is refused, with lengths that fit it.
    fn of_wrong_order(sweeps: usize, random: &mut Random) -> Lent {
        let n = random.small_wrong_order();
        Lent::drawn(n, sweeps, random, Random::unit)
    }

    /// Makes entries not finite, their mirror entries too in half of the cases.
    fn damage_entries(&mut self, random: &mut Random) {
        for (place, mirror) in self.places(random) {
            self.matrix[place] = random.not_finite();
            if random.one_in(2) {
                self.matrix[mirror] = self.matrix[place];
            }
        }
    }

    /// Makes entries and their mirror entries differ by their sign, by that of a zero, or in any bit.
    fn damage_mirrors(&mut self, random: &mut Random) {
        for (place, mirror) in self.places(random) {
            match random.below(3) {
                0 => self.matrix[place] = -self.matrix[mirror],
                1 => (self.matrix[place], self.matrix[mirror]) = (0.0, -0.0),
                _ => {
                    let bit = 1 << random.below(64);
                    self.matrix[place] = f64::from_bits(self.matrix[mirror].to_bits() ^ bit);
                }
            }
        }
    }

    /// Where up to four entries and their mirror entries stand, in half of the cases all in one row.
    fn places(&self, random: &mut Random) -> Vec<(usize, usize)> {
        let n = self.matrix.len().isqrt();
        if n == 0 {
            return Vec::new();
        }
        let (row, in_one_row) = (random.below(n), random.one_in(2));
        let count = 1 + random.below(4);
        let mut place = || {
            let i = if in_one_row { row } else { random.below(n) };
            let j = random.below(n);
            (i * n + j, j * n + i)
        };
        (0..count).map(|_| place()).collect()
    }
}
