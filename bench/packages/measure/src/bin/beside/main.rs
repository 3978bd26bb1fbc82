//! Measures the runs of two shared libraries by turns and prints a table in Markdown. `bench/beside` builds the libraries
//! and starts this program.
mod library;

use draw::Random;
use library::Library;
use measure::matrices::{restless, SWEEPS};
use measure::rounds::{fastest, round, shown};
use reference::sizes::MOST_LINES;
use std::env;

const SEED: u64 = 1983;
/// Orders with numbers of sweeps of which none is quiet, so that a version which ends early makes them all.
const SIZES: [(usize, usize); 4] = [(2, 1), (8, SWEEPS), (16, SWEEPS), (MOST_LINES, SWEEPS)];
const TIMES: usize = 3;

fn main() {
    let files: Vec<String> = env::args().skip(1).collect();
    let [before, now] = files.as_slice() else {
        panic!("the files of two libraries are expected, and not {files:?}");
    };
    let libraries = [before, now].map(|file| Library::load(file));
    let mut random = Random::new(SEED);
    println!("| run | n | sweeps | before | now | now / before, {TIMES} times |");
    println!("|---|---|---|---|---|---|");
    for (n, sweeps) in SIZES {
        measure(&libraries, n, sweeps, &mut random);
    }
}

/// Prints the rows of an order.
fn measure([before, now]: &[Library; 2], n: usize, sweeps: usize, random: &mut Random) {
    let all = restless(n, sweeps, random);
    let times = [(); TIMES].map(|()| {
        fastest([
            round(&all, |lent| before.plain_run(lent)),
            round(&all, |lent| now.plain_run(lent)),
            round(&all, |lent| before.array_run(lent)),
            round(&all, |lent| now.array_run(lent)),
        ])
    });
    for (k, run) in ["plain", "array"].iter().enumerate() {
        let pairs = times.map(|times| [times[2 * k], times[2 * k + 1]]);
        let least = |side: usize| {
            pairs
                .iter()
                .map(|pair| pair[side])
                .fold(f64::INFINITY, f64::min)
        };
        let ratios = pairs.map(|[before, now]| format!("{:.2}", now / before));
        println!(
            "| {run} | {n} | {sweeps} | {} | {} | {} |",
            shown(least(0)),
            shown(least(1)),
            ratios.join(", ")
        );
    }
}
