//! Draws of an array's words.
use crate::values::ENTRY_KINDS;
use crate::Random;
use reference::sizes::{
    sweep_steps, ticks, ARRAY_WORDS, HEAD_WORDS, MOST_LINES, MOST_SWEEPS, TILE_WORDS,
};

impl Random {
    /// What the words hold before a start: anything.
    pub fn words(&mut self) -> Vec<u64> {
        let words = vec![self.word(); ARRAY_WORDS];
        self.lent_words(words)
    }

    /// A record as a caller may have written it.
    pub fn record(&mut self) -> Vec<u64> {
        let (n, sweeps) = (self.order(), self.sweeps());
        let order = n.clamp(2, MOST_LINES);
        let last = ticks(order, sweeps.min(MOST_SWEEPS));
        let tick = match self.below(8) {
            0 => self.word() as usize,
            1 => 3 * sweep_steps(order) * self.below(MOST_SWEEPS),
            _ => self.below(last + 2),
        };
        let mut words = vec![0; ARRAY_WORDS];
        let (head, tiles) = words.split_at_mut(HEAD_WORDS);
        head.copy_from_slice(&[n, sweeps, tick].map(|size| size as u64));
        let kind = self.below(2 * ENTRY_KINDS);
        for tile in tiles.chunks_exact_mut(TILE_WORDS) {
            tile.fill_with(|| self.tile_word(kind));
            let rest = [self.mark(), self.count(), self.count()];
            tile[TILE_WORDS - rest.len()..].copy_from_slice(&rest);
        }
        self.lent_words(words)
    }

    /// In one case of 16 the number of words may be wrong.
    fn lent_words(&mut self, mut words: Vec<u64>) -> Vec<u64> {
        if self.one_in(16) {
            self.lend_wrongly(&mut words);
        }
        words
    }

    /// A cell or a wire: of one of the kinds of entries, and any pattern in half of the records.
    fn tile_word(&mut self, kind: usize) -> u64 {
        if kind < ENTRY_KINDS {
            self.entry(kind).to_bits()
        } else {
            self.pattern().to_bits()
        }
    }

    /// A count of turns or of rounded pairs: none, one, around the most, or any word.
    fn count(&mut self) -> u64 {
        match self.below(6) {
            0 => self.word(),
            1 => self.word() >> self.below(64),
            2 => 0,
            3 => 1,
            _ => u16::MAX as u64 - 1 + self.below(3) as u64,
        }
    }

    /// Two of three tiles are not marked.
    fn mark(&mut self) -> u64 {
        match self.below(6) {
            0 => self.word(),
            1 => 1 << self.below(64),
            _ => 0,
        }
    }
}
