//! Times in the fastest of many rounds.
use std::time::{Duration, Instant};

/// How long calls that are compared are measured together.
const MEASURED: Duration = Duration::from_secs(5);
const NANOSECONDS: f64 = 1e9;

/// Nanoseconds a call, from one round.
pub type Round<'a> = Box<dyn FnMut() -> f64 + 'a>;

/// The least of each, from rounds by turns.
pub fn fastest<const K: usize>(mut rounds: [Round; K]) -> [f64; K] {
    let mut best = [f64::INFINITY; K];
    let start = Instant::now();
    while start.elapsed() < MEASURED {
        for (least, round) in best.iter_mut().zip(&mut rounds) {
            *least = least.min(round());
        }
    }
    best
}

/// A round that makes a call with each of what may be lent. None is refused.
pub fn round<'a, T: Clone + 'a>(all: &[T], call: impl Fn(&mut T) -> bool + 'a) -> Round<'a> {
    let mut all = all.to_vec();
    Box::new(move || {
        let start = Instant::now();
        for lent in &mut all {
            assert!(call(lent), "a call that is measured was refused");
        }
        nanoseconds(start, all.len())
    })
}

pub fn nanoseconds(start: Instant, calls: usize) -> f64 {
    start.elapsed().as_secs_f64() * NANOSECONDS / calls as f64
}

/// Nanoseconds with a unit.
pub fn shown(nanoseconds: f64) -> String {
    if nanoseconds < 1000.0 {
        format!("{nanoseconds:.1} ns")
    } else {
        format!("{:.1} µs", nanoseconds / 1000.0)
    }
}
