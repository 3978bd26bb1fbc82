//! The square root beside the processor's and the reference's.
use draw::Random;
use measure::rounds::{fastest, nanoseconds, shown, Round};

use reference::root;
use std::hint::black_box;
use std::time::Instant;

const INPUTS: usize = 4096;
const FRACTION: u64 = (1 << 52) - 1;

pub fn measure(random: &mut Random) {
    let normal = |bits: u64| f64::from_bits((bits & FRACTION) | ((1 + (bits >> 52) % 2046) << 52));
    let inputs: Vec<f64> = (0..INPUTS).map(|_| normal(random.word())).collect();
    println!("| square root | library | processor | reference | library / processor | library / reference |");
    println!("|---|---|---|---|---|---|");
    print_row(
        "each call waits for the last",
        [
            Box::new(|| chained(&inputs, library)),
            Box::new(|| chained(&inputs, processor)),
            Box::new(|| chained(&inputs, reference)),
        ],
    );
    print_row(
        "independent calls",
        [
            Box::new(|| apart(&inputs, library)),
            Box::new(|| apart(&inputs, processor)),
            Box::new(|| apart(&inputs, reference)),
        ],
    );
}

fn print_row(name: &str, rounds: [Round; 3]) {
    let [library, processor, reference] = fastest(rounds);
    println!(
        "| {name} | {} | {} | {} | {:.1} | {:.1} |",
        shown(library),
        shown(processor),
        shown(reference),
        library / processor,
        library / reference
    );
}

fn library(x: f64) -> f64 {
    weimrukas::root(x).map_or(f64::NAN, |root| root.value)
}

/// The processor's square root, by a call as the library's is.
#[inline(never)]
fn processor(x: f64) -> f64 {
    x.sqrt()
}

#[inline(never)]
fn reference(x: f64) -> f64 {
    root::nearest(x).map_or(f64::NAN, |root| root.value)
}

/// Nanoseconds a call where no call waits for another.
fn apart(inputs: &[f64], root: impl Fn(f64) -> f64) -> f64 {
    let start = Instant::now();
    let mut all = 0;
    for x in inputs {
        all ^= root(*x).to_bits();
    }
    black_box(all);
    nanoseconds(start, inputs.len())
}

/// The same where each call waits for the result of the one before, as in a rotation.
fn chained(inputs: &[f64], root: impl Fn(f64) -> f64) -> f64 {
    let start = Instant::now();
    let mut last = 0;
    for x in inputs {
        // The lowest bit of the last result makes no difference to the time of the next.
        last = root(f64::from_bits(x.to_bits() ^ (last & 1))).to_bits();
    }
    black_box(last);
    nanoseconds(start, inputs.len())
}
