//! The matrices that runs are measured on.
use draw::{Lent, Random};
use reference::sizes::{MOST_LINES, MOST_SWEEPS};
use reference::{plain, Way};

pub const SWEEPS: usize = 8;

/// The matrices of a round: fewer of a larger order, so that a round is short.
fn of_round(n: usize, draw: impl FnMut(usize) -> Lent) -> Vec<Lent> {
    (0..MOST_LINES * MOST_LINES / (n * n)).map(draw).collect()
}

/// Full matrices.
pub fn drawn(n: usize, sweeps: usize, random: &mut Random) -> Vec<Lent> {
    of_round(n, |_| Lent::drawn(n, sweeps, random, Random::unit))
}

/// Full matrices of which none of the sweeps is quiet.
pub fn restless(n: usize, sweeps: usize, random: &mut Random) -> Vec<Lent> {
    let mut draw = || Lent::drawn(n, sweeps, random, Random::unit);
    of_round(n, |_| loop {
        let lent = draw();
        if sweeps_made(&lent) > sweeps {
            return lent;
        }
    })
}

/// Matrices of which the last of the sweeps is the first quiet one: whole numbers on the diagonal and beside them values
/// that are made smaller until it is.
pub fn settling(n: usize, sweeps: usize, random: &mut Random) -> Vec<Lent> {
    let mut draw = |scale: i32| {
        Lent::drawn_by_place(n, sweeps, random, |random, i, j| {
            if i == j {
                (i + 1) as f64
            } else {
                random.unit() * 2f64.powi(-scale)
            }
        })
    };
    of_round(n, |_| loop {
        if let Some(found) = (0..40)
            .map(&mut draw)
            .find(|lent| sweeps_made(lent) == sweeps)
        {
            return found;
        }
    })
}

/// The sweeps that a run makes where the most sweeps are asked for.
pub fn sweeps_made(lent: &Lent) -> usize {
    let Lent { n, matrix, .. } = lent;
    let [mut result, mut vectors] = [(); 2].map(|()| vec![0.0; n * n]);
    plain::run(
        *n,
        MOST_SWEEPS,
        matrix,
        &mut result,
        &mut vectors,
        Way::Short,
    )
    .expect("the matrix is ordinary")
    .sweeps
}
