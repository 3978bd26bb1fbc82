//! Whether a call did what the reference's answer says. Numbers that a call is lent hold a pattern beforehand, so that
//! setting one that is to be left makes a difference.
use reference::Refusal;
use weimrukas::calls::Place;

pub const FILLED: usize = 0xA5A5_5A5A_C3C3_3C3C;
/// A pattern of a value that is not a number.
pub const FILLED_BITS: u64 = 0xFFF4_5A5A_C3C3_3C3C;
pub const FILLED_BYTE: u8 = 0xA5;
pub const FILLED_PLACE: Place = Place {
    row: FILLED,
    column: FILLED,
};

/// Whether the number is the expected one, and the place too, or left.
pub fn is_told<T>(expected: &Result<T, Refusal>, number: u8, place: Place) -> bool {
    let (told, at) = match expected {
        Ok(_) => (0, None),
        Err(refusal) => (refusal.number, refusal.place),
    };
    let (row, column) = at.unwrap_or((FILLED, FILLED));
    number == told && place == Place { row, column }
}

/// Whether a lent number is the one that is answered, or left where the call is refused.
pub fn is_number(expected: Result<usize, Refusal>, number: usize) -> bool {
    number == expected.unwrap_or(FILLED)
}

pub fn same_bits(x: &[f64], y: &[f64]) -> bool {
    let bits = |z: &f64| z.to_bits();
    x.iter().map(bits).eq(y.iter().map(bits))
}
