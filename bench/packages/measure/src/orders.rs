//! Calls of the library beside those of the reference, by order.
use measure::rounds::{fastest, round, shown};

const ORDERS: [usize; 4] = [2, 8, 16, 32];

/// A call that is measured: whether it was accepted.
pub type Call<T> = fn(&mut T) -> bool;

pub fn print_head() {
    println!("| call | n | library | times n = 2 | reference | library / reference |");
    println!("|---|---|---|---|---|---|");
}

/// Prints the rows of two calls, each given as the library's and the reference's. What is lent in a round is drawn by
/// the order.
pub fn measure<T: Clone>(
    names: [&str; 2],
    calls: [Call<T>; 4],
    mut draw: impl FnMut(usize) -> Vec<T>,
) {
    let times = ORDERS.map(|n| {
        let all = draw(n);
        fastest(calls.map(|call| round(&all, call)))
    });
    let first = times[0];
    for (k, name) in names.iter().enumerate() {
        for (n, times) in ORDERS.iter().zip(times) {
            let (library, reference) = (times[2 * k], times[2 * k + 1]);
            println!(
                "| {name} | {n} | {} | {:.1} | {} | {:.2} |",
                shown(library),
                library / first[2 * k],
                shown(reference),
                library / reference
            );
        }
    }
}
