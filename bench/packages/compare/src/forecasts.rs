//! What a run by the array takes, told before it.
use crate::expected::{is_number, is_told, FILLED, FILLED_PLACE};
use crate::tally::{number_of, Tally};
use draw::{Lent, Random};
use reference::array::Array;
use reference::forecast::{counted, of_run, Forecast};
use reference::Refusal;
use weimrukas::calls;

/// Orders and sweeps that are far beyond the limits. Some would pass if their upper bits were lost, or if a product of
/// them wrapped around.
const FAR: [usize; 16] = [
    255,
    256,
    256 + 4,
    (1 << 16) + 4,
    (1 << 32) - 1,
    1 << 32,
    (1 << 32) + 4,
    1 << 60,
    1 << 61,
    1 << 62,
    (1 << 63) - 1,
    1 << 63,
    (1 << 63) + 4,
    usize::MAX / 3,
    usize::MAX - 1,
    usize::MAX,
];

pub fn compare(random: &mut Random) -> bool {
    let sizes = compare_sizes();
    compare_runs(random) && sizes
}

/// Every order and every number of sweeps up to some beyond the limits, and far ones.
fn compare_sizes() -> bool {
    let mut tally = Tally::new("forecasts", &["0", "1", "2"]);
    for n in (0..=70).chain(FAR) {
        for sweeps in (0..=20).chain(FAR) {
            let expected = of_run(n, sweeps);
            tally.count(number_of(&expected), is_forecast(n, sweeps, expected));
        }
    }
    tally.report()
}

/// What is counted over runs of all orders, sweeps and kinds of entries, by whether they are spoiled.
fn compare_runs(random: &mut Random) -> bool {
    let mut tally = Tally::new("forecasts of runs", &["whole", "spoiled"]);
    for k in 0..Lent::EACH {
        let lent = Lent::each(k, random);
        let mut array = Array::of_matrix(lent.n, lent.sweeps, &lent.matrix);
        let same = is_forecast(lent.n, lent.sweeps, Ok(counted(&mut array)));
        let answer = if array.is_spoiled() {
            "spoiled"
        } else {
            "whole"
        };
        tally.count(answer, same);
    }
    tally.report()
}

/// Whether the library tells what is expected. A refusal leaves all three numbers.
fn is_forecast(n: usize, sweeps: usize, expected: Result<Forecast, Refusal>) -> bool {
    let [mut ticks, mut values, mut parameters] = [FILLED; 3];
    let number = calls::forecast(n, sweeps, &mut ticks, &mut values, &mut parameters);
    is_told(&expected, number, FILLED_PLACE)
        && is_number(expected.map(|figures| figures.ticks), ticks)
        && is_number(expected.map(|figures| figures.values), values)
        && is_number(expected.map(|figures| figures.parameters), parameters)
}
