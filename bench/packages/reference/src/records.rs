//! The records of a step (document 01, "One rotation"; document 02, odd orders and rounded roots).
use crate::ordering::Registers;
use crate::sizes::processors;
use crate::Refusal;
use crate::{checks, rotation};

/// Writes tangent, cosine and sine of each pair of a step into a lent row, three values to a processor, and whether both
/// its roots were exact into another, 1 or 0 to a processor.
pub fn of_step(
    n: usize,
    matrix: &[f64],
    step: usize,
    records: &mut [f64],
    exact: &mut [u8],
) -> Result<(), Refusal> {
    checks::order(n)?;
    checks::lengths(&[(matrix.len(), n * n)])?;
    checks::entries(n, matrix)?;
    checks::room(records.len(), 3 * processors(n))?;
    checks::room(exact.len(), processors(n))?;
    let registers = Registers::at(n, step);
    let rows = records.chunks_exact_mut(3).zip(exact);
    for (&(p, q), (record, exact)) in registers.pairs().iter().zip(rows) {
        let entry = |i: usize, j: usize| matrix[(i - 1) * n + (j - 1)];
        let found = match p {
            0 => rotation::STILL,
            _ => rotation::parameters(entry(p, p), entry(q, q), entry(p, q)),
        };
        record.copy_from_slice(&rotation::recorded(found.turn));
        *exact = found.exact as u8;
    }
    Ok(())
}
