//! What a run by the array takes (document 02, ticks and traffic before a run), counted over the ticks of the array and
//! by no formula.
use crate::array::Array;
use crate::checks;
use crate::Refusal;

/// The ticks, the values of the matrix and the eigenvectors that tiles set on their wires, and the parameters that tiles
/// off the diagonal receive.
#[derive(Clone, Copy)]
pub struct Forecast {
    pub ticks: usize,
    pub values: usize,
    pub parameters: usize,
}

/// The most that a run of this order and these sweeps can need: what it takes if it makes all of them.
pub fn of_run(n: usize, sweeps: usize) -> Result<Forecast, Refusal> {
    checks::order(n)?;
    checks::sweeps(sweeps)?;
    let zeros = vec![0.0; n * n];
    Ok(counted(&mut Array::of_matrix(n, sweeps, &zeros)))
}

/// Makes ticks until every tile has stopped. A wire takes a value of the matrix and one of the eigenvectors; a tile
/// reads a parameter, a tangent, along its row and one along its column.
pub fn counted(array: &mut Array) -> Forecast {
    let (mut ticks, mut values, mut parameters) = (0, 0, 0);
    while !array.has_stopped() {
        let (wires, readings) = array.traffic();
        array.make_tick();
        ticks += 1;
        values += 2 * wires;
        parameters += 2 * readings;
    }
    Forecast {
        ticks,
        values,
        parameters,
    }
}
