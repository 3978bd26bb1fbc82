//! What is tested before a call does anything (document 01, "Refused, by place"; document 02, odd orders and joined sheets).
use crate::sheet::Form;
use crate::sizes::{MOST_LINES, MOST_SWEEPS};
use crate::Refusal;

pub fn order(n: usize) -> Result<(), Refusal> {
    accepted_if((2..=MOST_LINES).contains(&n), 1)
}

pub fn sweeps(sweeps: usize) -> Result<(), Refusal> {
    accepted_if(sweeps <= MOST_SWEEPS, 2)
}

/// Each length that was found beside the one that is asked for.
pub fn lengths(pairs: &[(usize, usize)]) -> Result<(), Refusal> {
    accepted_if(pairs.iter().all(|(found, asked)| found == asked), 3)
}

pub fn codes(codes: &[u16]) -> Result<(), Refusal> {
    let is_bad = |(k, code): (usize, &u16)| *code == 0 || codes[..k].contains(code);
    accepted_if(!codes.iter().enumerate().any(is_bad), 4)
}

/// The form that codes were found in beside the one that they are written in.
pub fn form(found: Form, written: Form) -> Result<(), Refusal> {
    accepted_if(found == written, 4)
}

/// The codes of two sheets that are joined.
pub fn apart(codes: &[u16], others: &[u16]) -> Result<(), Refusal> {
    let is_shared = |code: &u16| others.iter().any(|other| other == code);
    accepted_if(!codes.iter().any(is_shared), 10)
}

/// All entries are tested for 5 before any for 6.
pub fn entries(n: usize, matrix: &[f64]) -> Result<(), Refusal> {
    if let Some(k) = matrix.iter().position(|x| !x.is_finite()) {
        return Err(Refusal::at(5, k / n + 1, k % n + 1));
    }
    let bits = |i: usize, j: usize| matrix[i * n + j].to_bits();
    for i in 0..n {
        if let Some(j) = (i + 1..n).find(|&j| bits(i, j) != bits(j, i)) {
            return Err(Refusal::at(6, i + 1, j + 1));
        }
    }
    Ok(())
}

/// A lent buffer that may be longer than is asked for.
pub fn room(found: usize, asked: usize) -> Result<(), Refusal> {
    accepted_if(found >= asked, 7)
}

/// A run of either kind, by the lengths of its results.
pub fn run(
    n: usize,
    sweeps: usize,
    matrix: &[f64],
    result: usize,
    vectors: usize,
) -> Result<(), Refusal> {
    order(n)?;
    self::sweeps(sweeps)?;
    lengths(&[(matrix.len(), n * n), (result, n * n), (vectors, n * n)])?;
    entries(n, matrix)
}

fn accepted_if(condition: bool, number: u8) -> Result<(), Refusal> {
    if condition {
        Ok(())
    } else {
        Err(Refusal::of(number))
    }
}
