//! Compares calls of the library with the reference, bit for bit. `bench/compare` builds the library and starts this
//! program.
mod arrays;
mod expected;
mod forecasts;
mod joinings;
mod orderings;
mod roots;
mod rotations;
mod runs;
mod sheets;
mod sizes;
mod tally;
mod wrapper;

use draw::Random;
use std::process::ExitCode;
use std::thread;

/// All calls are made on a stack of so many bytes.
const STACK: usize = 320 << 10;

/// Draws and compares, prints a line to a subject, and tells whether all is as expected.
type Subject = fn(&mut Random) -> bool;

const SUBJECTS: [Subject; 10] = [
    sizes::compare,
    roots::compare,
    rotations::compare,
    orderings::compare,
    runs::compare,
    arrays::compare,
    forecasts::compare,
    sheets::compare,
    joinings::compare,
    wrapper::compare,
];

fn main() -> ExitCode {
    let seed = match std::env::args().nth(1) {
        Some(text) => text.parse().expect("the seed is a number above 0"),
        None => 1983,
    };
    println!("seed {seed}, stack of {STACK} bytes");
    let compare = move || {
        let mut random = Random::new(seed);
        SUBJECTS.map(|subject| subject(&mut random)) == [true; SUBJECTS.len()]
    };
    let thread = thread::Builder::new().stack_size(STACK).spawn(compare);
    match thread.expect("a thread").join() {
        Ok(true) => ExitCode::SUCCESS,
        _ => ExitCode::FAILURE,
    }
}
