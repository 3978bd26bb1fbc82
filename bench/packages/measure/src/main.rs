//! Measures calls of the library beside the reference and prints tables in Markdown. `bench/measure` builds the library
//! and starts this program.
mod orders;
mod roots;
mod runs;
mod sheets;

use draw::Random;

const SEED: u64 = 1983;

fn main() {
    let mut random = Random::new(SEED);
    roots::measure(&mut random);
    println!();
    orders::print_head();
    runs::measure_orders(&mut random);
    sheets::measure(&mut random);
    println!();
    sheets::measure_joinings(&mut random);
    println!();
    runs::measure_odd(&mut random);
    println!();
    runs::measure_sweeps(&mut random);
    println!();
    runs::measure_quiet(&mut random);
}
