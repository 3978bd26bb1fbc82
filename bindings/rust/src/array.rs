//! The array tick by tick.
use crate::calls::{self, Place};
use crate::{answer, Refusal, ARRAY_WORDS};

/// The array by hand, in words as the header lays them out.
#[derive(Clone, Debug, PartialEq, Eq)]
pub struct Array {
    words: Box<[u64]>,
}

impl Array {
    /// The array before its first tick.
    pub fn start(n: usize, sweeps: usize, matrix: &[f64]) -> Result<Array, Refusal> {
        let mut words = vec![0; ARRAY_WORDS].into_boxed_slice();
        let mut place = Place::default();
        let number = calls::array_start(n, sweeps, matrix, &mut words, &mut place);
        answer(number, place, Array { words })
    }

    /// An array of any words whatever.
    pub fn of_words(words: Box<[u64]>) -> Array {
        Array { words }
    }

    pub fn words(&self) -> &[u64] {
        &self.words
    }

    /// Whether a tick was made; otherwise the array has stopped.
    pub fn tick(&mut self) -> Result<bool, Refusal> {
        let mut made = 0;
        let number = calls::array_tick(&mut self.words, &mut made);
        answer(number, Place::default(), made == 1)
    }
}
