//! The functions of `weimrukas.h` for Rust: eigenvalues and eigenvectors of symmetric matrices of coded barley lines,
//! by plain sweeps or by an array of tiles. Orders are 2 to 32, even and odd. What each function asks for and answers,
//! the order of its refusals, what a refused call leaves and which pairs are exact and which rounded is said in the
//! header. As everywhere in Rust, the floating-point environment is the default.
//!
//! ```
//! let (mut result, mut vectors) = ([0.0; 4], [0.0; 4]);
//! let ran = weimrukas::plain_run(2, 16, &[1.0; 4], &mut result, &mut vectors)?;
//! assert_eq!(result, [0.0, 0.0, 0.0, 2.0]);
//! assert_eq!((ran.sweeps, ran.rounded), (2, 1));
//! assert!(weimrukas::root(4.0)?.exact && !weimrukas::root(2.0)?.exact);
//! # Ok::<(), weimrukas::Refusal>(())
//! ```
//!
//! The build script links the library from the folder that `WEIMRUKAS_LIB_DIR` names.
#![deny(unsafe_code)]

mod array;
pub mod calls;
mod refusal;
mod sizes;

use calls::Place;

pub use array::Array;
pub use refusal::Refusal;
pub use sizes::{
    long_sheet_length, sheet_length, text_length, tile, ARRAY_WORDS, MOST_LINES, MOST_PROCESSORS,
    MOST_SWEEPS, TILE_WORDS,
};

/// A square root.
#[derive(Clone, Copy, Debug, PartialEq)]
pub struct Root {
    /// The f64 nearest to the exact root.
    pub value: f64,
    /// Whether it is the exact root.
    pub exact: bool,
}

/// The parameters of a pair.
#[derive(Clone, Copy, Debug, PartialEq)]
pub enum Parameters {
    Still,
    /// Tangent, cosine and sine.
    Turn(f64, f64, f64),
}

/// What is found of a pair.
#[derive(Clone, Copy, Debug, PartialEq)]
pub struct Found {
    pub parameters: Parameters,
    /// Whether both roots were exact. Where it takes none they were, and where its tangent is not a number they were not.
    pub exact: bool,
}

/// What a run by plain sweeps made.
#[derive(Clone, Copy, Debug, PartialEq, Eq)]
pub struct Ran {
    pub sweeps: usize,
    /// How many of the pairs that it met had a rounded root.
    pub rounded: usize,
}

/// What a run by the array made.
#[derive(Clone, Copy, Debug, PartialEq, Eq)]
pub struct Made {
    pub sweeps: usize,
    pub ticks: usize,
    /// How many of the pairs that it met had a rounded root.
    pub rounded: usize,
}

/// The most that a run by the array can need.
#[derive(Clone, Copy, Debug, PartialEq, Eq)]
pub struct Forecast {
    pub ticks: usize,
    /// Values of the matrix and the eigenvectors that tiles set on their wires.
    pub values: usize,
    /// Parameters, a tangent each, that tiles off the diagonal receive.
    pub parameters: usize,
}

/// The f64 nearest to the exact square root of x, and whether it is exact.
pub fn root(x: f64) -> Result<Root, Refusal> {
    let (mut value, mut exact) = (0.0, 0);
    let number = calls::root(x, &mut value, &mut exact);
    let exact = exact == 1;
    answer(number, Place::default(), Root { value, exact })
}

/// The parameters of a pair, from a = a_pp, d = a_qq and b = a_pq, and whether its roots were exact. They are finite where
/// these are.
pub fn parameters(a: f64, d: f64, b: f64) -> Found {
    let (mut turn, mut t, mut c, mut s, mut exact) = (0, 0.0, 0.0, 0.0, 0);
    calls::parameters(a, d, b, &mut turn, &mut t, &mut c, &mut s, &mut exact);
    Found {
        parameters: if turn == 0 {
            Parameters::Still
        } else {
            Parameters::Turn(t, c, s)
        },
        exact: exact == 1,
    }
}

/// Writes the registers of each of the (n + 1) / 2 processors in a step, from 0, into two lent rows. Line 0 of an odd
/// order is shown as 0.
pub fn pairs(
    n: usize,
    step: usize,
    left: &mut [usize],
    right: &mut [usize],
) -> Result<(), Refusal> {
    let number = calls::pairs(n, step, left, right);
    answer(number, Place::default(), ())
}

/// Writes tangent, cosine and sine of each pair of a step, from 0, into a lent row of three values to a processor, and
/// whether its roots were exact into another of one flag to a processor. There are (n + 1) / 2 processors, of which the
/// first is always still and exact where the order is odd. All values are finite.
pub fn records(
    n: usize,
    matrix: &[f64],
    step: usize,
    records: &mut [f64],
    exact: &mut [bool],
) -> Result<(), Refusal> {
    let (mut bytes, mut place) = ([0; MOST_PROCESSORS], Place::default());
    // No order has more processors.
    let lent = exact.len().min(MOST_PROCESSORS);
    let bytes = &mut bytes[..lent];
    for (byte, flag) in bytes.iter_mut().zip(&*exact) {
        *byte = *flag as u8;
    }
    let number = calls::records(n, matrix, step, records, bytes, &mut place);
    for (flag, byte) in exact.iter_mut().zip(bytes) {
        *flag = *byte == 1;
    }
    answer(number, place, ())
}

/// Runs the sweeps, and leaves the last matrix and the eigenvectors in the two results. It ends after the first sweep in
/// which every pair was still, as further ones would change no bit, and answers the number of the sweeps that it made and
/// that of the pairs with a rounded root in them.
pub fn plain_run(
    n: usize,
    sweeps: usize,
    matrix: &[f64],
    result: &mut [f64],
    vectors: &mut [f64],
) -> Result<Ran, Refusal> {
    let (mut made, mut rounded, mut place) = (0, 0, Place::default());
    let number = calls::plain_run(
        n,
        sweeps,
        matrix,
        result,
        vectors,
        &mut made,
        &mut rounded,
        &mut place,
    );
    let sweeps = made;
    answer(number, place, Ran { sweeps, rounded })
}

/// The same by the array. Answers the numbers of the sweeps and of the ticks that it made too.
pub fn array_run(
    n: usize,
    sweeps: usize,
    matrix: &[f64],
    result: &mut [f64],
    vectors: &mut [f64],
) -> Result<Made, Refusal> {
    let (mut made, mut ticks, mut rounded, mut place) = (0, 0, 0, Place::default());
    let number = calls::array_run(
        n,
        sweeps,
        matrix,
        result,
        vectors,
        &mut made,
        &mut ticks,
        &mut rounded,
        &mut place,
    );
    let made = Made {
        sweeps: made,
        ticks,
        rounded,
    };
    answer(number, place, made)
}

/// The most that a run by the array can need, before it is made: by the order and the sweeps alone, for a run that will
/// be refused by 8 too. It needs this if it makes all the sweeps.
pub fn forecast(n: usize, sweeps: usize) -> Result<Forecast, Refusal> {
    let (mut ticks, mut values, mut parameters) = (0, 0, 0);
    let number = calls::forecast(n, sweeps, &mut ticks, &mut values, &mut parameters);
    let forecast = Forecast {
        ticks,
        values,
        parameters,
    };
    answer(number, Place::default(), forecast)
}

/// Reads a sheet into lent codes and a lent matrix, and answers the order and the sweeps. The order is the first byte
/// modulo 128.
pub fn read_sheet(
    sheet: &[u8],
    codes: &mut [u16],
    matrix: &mut [f64],
) -> Result<(usize, usize), Refusal> {
    let (mut n, mut sweeps, mut place) = (0, 0, Place::default());
    let number = calls::read_sheet(sheet, codes, matrix, &mut n, &mut sweeps, &mut place);
    answer(number, place, (n, sweeps))
}

/// Writes a sheet into lent bytes, and answers how many it has: `long_sheet_length(n)` where a code is above 255, and
/// `sheet_length(n)` elsewhere.
pub fn write_sheet(
    n: usize,
    sweeps: usize,
    codes: &[u16],
    matrix: &[f64],
    sheet: &mut [u8],
) -> Result<usize, Refusal> {
    let (mut written, mut place) = (0, Place::default());
    let number = calls::write_sheet(n, sweeps, codes, matrix, sheet, &mut written, &mut place);
    answer(number, place, written)
}

/// Joins two sheets into lent bytes, and answers how many the joint sheet has: the lines of the first and then those of the
/// second, +0 between the two groups, and the larger number of sweeps. The place beside a refusal by 5 is that in the
/// sheet which is refused; which of the two it is, is not told.
pub fn join_sheets(first: &[u8], second: &[u8], sheet: &mut [u8]) -> Result<usize, Refusal> {
    let (mut written, mut place) = (0, Place::default());
    let number = calls::join_sheets(first, second, sheet, &mut written, &mut place);
    answer(number, place, written)
}

/// Puts the printed sheet into a lent text, and answers how many bytes it has.
pub fn list(sheet: &[u8], text: &mut [u8]) -> Result<usize, Refusal> {
    let (mut printed, mut place) = (0, Place::default());
    let number = calls::list(sheet, text, &mut printed, &mut place);
    answer(number, place, printed)
}

/// An answer by its number. Only 5 and 6 have a place.
fn answer<T>(number: u8, place: Place, value: T) -> Result<T, Refusal> {
    match number {
        0 => Ok(value),
        5 | 6 => Err(Refusal::at(number, place.row, place.column)),
        _ => Err(Refusal::of(number)),
    }
}
