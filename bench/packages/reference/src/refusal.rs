//! What a refused call answers.

/// A number of document 01's table, or document 02's 10; for 5 and 6 the row and the column of the entry, from 1.
#[derive(Clone, Copy, Debug, PartialEq, Eq)]
pub struct Refusal {
    pub number: u8,
    pub place: Option<(usize, usize)>,
}

impl Refusal {
    pub(crate) const fn of(number: u8) -> Refusal {
        Refusal {
            number,
            place: None,
        }
    }

    pub(crate) const fn at(number: u8, row: usize, column: usize) -> Refusal {
        Refusal {
            number,
            place: Some((row, column)),
        }
    }
}
