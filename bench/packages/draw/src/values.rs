//! Draws of f64 values.
use crate::Random;

const SIGN: u64 = 1 << 63;
/// One in the exponent's lowest bit.
const POWER: u64 = 1 << 52;
/// The exponent of infinities and of patterns that are not numbers.
const TOP: u64 = 0x7FF * POWER;

/// Kinds of entries that a matrix may have throughout.
pub const ENTRY_KINDS: usize = 12;
/// Kinds of matrices that soon have a quiet sweep.
const SETTLING_KINDS: usize = 6;
/// All of them.
pub const KINDS: usize = ENTRY_KINDS + SETTLING_KINDS;

/// The largest whole number whose square has no more than 53 digits.
const LONGEST_ROOT: u64 = 94_906_265;

impl Random {
    /// A value from -1 to 1.
    pub fn unit(&mut self) -> f64 {
        (self.word() >> 11) as f64 / POWER as f64 - 1.0
    }

    /// Any of the 2^64 patterns; those that are rare among them more often.
    pub fn pattern(&mut self) -> f64 {
        let sign = self.word() & SIGN;
        let bits = match self.below(8) {
            0..=2 => self.word(),
            3 => self.not_finite().to_bits(),
            4 => 0,
            5 => self.word() % POWER,
            6 => {
                let power = self.word() % SIGN / POWER * POWER;
                self.near(power)
            }
            _ => (self.below(1 << 16) as f64).to_bits(),
        };
        f64::from_bits(bits ^ sign)
    }

    /// An infinity, or a pattern of any sign and payload that is not a number.
    pub fn not_finite(&mut self) -> f64 {
        let sign = self.word() & SIGN;
        let bits = match self.below(4) {
            0 => TOP,
            1 => TOP + 1,
            2 => TOP + POWER / 2,
            _ => TOP + (1 + self.word() % (POWER - 1)),
        };
        f64::from_bits(bits | sign)
    }

    pub fn finite(&mut self) -> f64 {
        loop {
            let x = self.pattern();
            if x.is_finite() {
                return x;
            }
        }
    }

    /// A pattern at most three from the given one.
    fn near(&mut self, bits: u64) -> u64 {
        bits.wrapping_add(self.below(7) as u64).wrapping_sub(3)
    }

    /// At most three patterns from the square of an f64. Among them are those whose roots are nearest to a tie.
    pub fn near_square(&mut self) -> f64 {
        let y = 1.0 + self.unit().abs();
        let scale = 2f64.powi(self.below(2040) as i32 - 1020);
        f64::from_bits(self.near((y * y * scale).to_bits()))
    }

    /// The square of a number of up to 27 digits, of any size, subnormal ones too: its root is exact.
    pub fn square(&mut self) -> f64 {
        let number = ((self.word() % LONGEST_ROOT) >> self.below(26)).max(1);
        let scale = 2f64.powi(self.below(1023) as i32 - 537);
        (number * number) as f64 * scale * scale
    }

    /// One pattern above or below such a square.
    pub fn beside_square(&mut self) -> f64 {
        let bits = self.square().to_bits();
        f64::from_bits(if self.one_in(2) { bits + 1 } else { bits - 1 })
    }

    /// Twice such a square, which is none, or a subnormal value.
    pub fn other_than_square(&mut self) -> f64 {
        if self.one_in(2) {
            2.0 * self.square()
        } else {
            f64::from_bits((self.word() % POWER) >> self.below(52))
        }
    }

    /// A value of either sign whose exponent's field is from low to high.
    fn within(&mut self, low: u64, high: u64) -> f64 {
        let field = low + self.word() % (high - low + 1);
        f64::from_bits((self.word() & SIGN) + field * POWER + self.word() % POWER)
    }

    /// An entry of one of `ENTRY_KINDS` kinds. Three are ordinary; the others are huge, as large as can be, any finite
    /// pattern, tiny, a few times the smallest, small whole numbers, zeros with a few of those, from 2^1022 to the
    /// largest, or subnormal and on both sides of 2^-1021.
    pub fn entry(&mut self, kind: usize) -> f64 {
        match kind {
            0..=2 => self.unit(),
            3 => self.unit() * 2f64.powi(1019),
            4 => f64::MAX.copysign(self.unit()),
            5 => self.finite(),
            6 => self.unit() * 2f64.powi(-520) * 2f64.powi(-520),
            7 => f64::from_bits(self.below(8) as u64).copysign(self.unit()),
            8 => (self.below(4) as f64).copysign(self.unit()),
            9 => ((self.below(17) / 16) as f64).copysign(self.unit()),
            10 => self.within(2045, 2046),
            _ => self.within(0, 3),
        }
    }

    /// The entry in row i and column j, from 0, of a matrix of one of `SETTLING_KINDS` kinds: zeros of either sign beside
    /// a diagonal; lines so far apart in size that every tangent is zero; every other line so, the others ordinary;
    /// small entries beside a diagonal of whole numbers; the same with a pair at the first two lines that spoils a run; or
    /// powers of two so far below a diagonal that turns of the first sweep have exact roots.
    pub fn settling_entry(&mut self, kind: usize, i: usize, j: usize) -> f64 {
        let far = |i: usize| 2f64.powi(600 + 5 * i as i32);
        let small = 2f64.powi(-10 - self.below(40) as i32);
        match kind {
            0 if i == j => self.finite(),
            0 => 0f64.copysign(self.unit()),
            1 if i == j => far(i).copysign(self.unit()),
            2 if i == j && i % 2 == 1 => far(i),
            1 | 2 => self.unit(),
            4 if i < 2 => f64::MAX,
            5 if i == j => (i + 1) as f64 * 2f64.powi(60),
            5 => 2f64.powi(self.below(4) as i32).copysign(self.unit()),
            _ if i == j => (i + 1) as f64,
            _ => self.unit() * small,
        }
    }

    /// What a lent row of values holds beforehand: any patterns.
    pub fn filled(&mut self, length: usize) -> Vec<f64> {
        (0..length).map(|_| f64::from_bits(self.word())).collect()
    }

    /// Entries a_pp, a_qq and a_pq of a pair. In one case of four the quotient has few digits and is often so large that
    /// the pair turns with exact roots.
    pub fn pair(&mut self) -> [f64; 3] {
        let (kind, scale) = (self.below(ENTRY_KINDS), self.below(200) as i32 - 100);
        match self.below(4) {
            0 => [0; 3].map(|_| self.pattern()),
            1 => [0, 0, scale].map(|scale| self.unit() * 2f64.powi(scale)),
            2 => [
                0.0,
                (1 + self.below(1 << 14)) as f64,
                2f64.powi(scale).copysign(self.unit()),
            ],
            _ => [0; 3].map(|_| self.entry(kind)),
        }
    }
}
