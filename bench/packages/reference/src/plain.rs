//! The plain run (document 01, "Plain run"; document 02, quiet sweeps and rounded roots), with the processor's square root.
//! Line 0 of an odd order is left out: its pair is still and exact, and what is cleared there is never reported.
use crate::checks;
use crate::ordering::Registers;
use crate::rotation::{parameters, Found, Turn};
use crate::sizes::sweep_steps;
use crate::{Refusal, Way};

/// The sweeps of a run up to its first quiet one, or all of them, and its pairs with a rounded root. A quiet sweep has none.
#[derive(Clone, Copy, Debug, PartialEq, Eq)]
pub struct Made {
    pub sweeps: usize,
    pub rounded: usize,
}

/// Runs the sweeps, leaves the last matrix and the eigenvectors in the two results, and answers the number of the first
/// sweep in which every pair was still, or that of all sweeps, and how many pairs had a rounded root. An entry that is not
/// finite stays so, so that it makes no difference when the matrices are tested.
pub fn run(
    n: usize,
    sweeps: usize,
    matrix: &[f64],
    result: &mut [f64],
    vectors: &mut [f64],
    way: Way,
) -> Result<Made, Refusal> {
    checks::run(n, sweeps, matrix, result.len(), vectors.len())?;
    result.copy_from_slice(matrix);
    vectors.fill(0.0);
    vectors.iter_mut().step_by(n + 1).for_each(|x| *x = 1.0);
    let mut registers = Registers::start(n);
    let (mut spoiled, mut quiet, mut rounded) = (false, None, 0);
    for sweep in 1..=sweeps {
        let mut turned = false;
        for _ in 0..sweep_steps(n) {
            for &(p, q) in registers.real_pairs() {
                let found = turn_pair(n, p - 1, q - 1, result, vectors);
                turned |= found.turn.is_some();
                rounded += !found.exact as usize;
            }
            spoiled |= way == Way::Whole && !all_finite(result, vectors);
            registers.step();
        }
        if !turned {
            quiet.get_or_insert(sweep);
            if way == Way::Short {
                break;
            }
        }
    }
    if spoiled || !all_finite(result, vectors) {
        result.fill(0.0);
        vectors.fill(0.0);
        return Err(Refusal::of(8));
    }
    let sweeps = quiet.unwrap_or(sweeps);
    Ok(Made { sweeps, rounded })
}

fn all_finite(result: &[f64], vectors: &[f64]) -> bool {
    result.iter().chain(vectors).all(|x| x.is_finite())
}

/// Turns the pair of the lines p and q, from 0, and answers what was found of it.
fn turn_pair(n: usize, p: usize, q: usize, a: &mut [f64], vectors: &mut [f64]) -> Found {
    let [app, aqq, apq] = [a[p * n + p], a[q * n + q], a[p * n + q]];
    let found = parameters(app, aqq, apq);
    if let Some(turn) = found.turn {
        turn_rows(turn, n, p, q, a);
        turn_columns(turn, n, p, q, a);
        turn_columns(turn, n, p, q, vectors);
        a[p * n + p] = app - turn.t * apq;
        a[q * n + q] = aqq + turn.t * apq;
    }
    a[p * n + q] = 0.0;
    a[q * n + p] = 0.0;
    found
}

/// Turns the rows p and q, also where they meet the columns p and q: those entries are set anew.
fn turn_rows(turn: Turn, n: usize, p: usize, q: usize, a: &mut [f64]) {
    let (upper, lower) = a.split_at_mut(p.max(q) * n);
    let (first, second) = (&mut upper[p.min(q) * n..][..n], &mut lower[..n]);
    let (left, right) = if p < q {
        (first, second)
    } else {
        (second, first)
    };
    for (x, y) in left.iter_mut().zip(right) {
        (*x, *y) = turn.of(*x, *y);
    }
}

fn turn_columns(turn: Turn, n: usize, p: usize, q: usize, a: &mut [f64]) {
    for row in a.chunks_exact_mut(n) {
        (row[p], row[q]) = turn.of(row[p], row[q]);
    }
}
