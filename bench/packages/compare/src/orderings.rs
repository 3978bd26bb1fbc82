//! The list of pairs.
use crate::expected::{is_told, FILLED, FILLED_PLACE};
use crate::tally::{number_of, Tally};
use draw::Random;
use reference::ordering::{pairs, Registers};
use reference::sizes::{processors, sweep_steps, MOST_LINES, MOST_TILES};
use weimrukas::calls;

const LISTS: usize = 30_000;

pub fn compare(random: &mut Random) -> bool {
    let walked = compare_walked();
    compare_any(random) && walked
}

/// Every order in every step of two sweeps, against registers that are moved from step to step.
fn compare_walked() -> bool {
    let mut tally = Tally::new("pairs step by step", &["0"]);
    for n in 2..=MOST_LINES {
        let mut registers = Registers::start(n);
        for step in 0..2 * sweep_steps(n) {
            let [mut left, mut right] = [[FILLED; MOST_TILES]; 2];
            let number = calls::pairs(n, step, &mut left, &mut right);
            let mut all = [(0, 0); MOST_TILES];
            all[..processors(n)].copy_from_slice(registers.pairs());
            let same = left.into_iter().zip(right).eq(all);
            tally.count("0", number == 0 && same);
            registers.step();
        }
    }
    tally.report()
}

/// Any orders, steps and lengths.
fn compare_any(random: &mut Random) -> bool {
    let mut tally = Tally::new("pairs", &["0", "1", "7"]);
    for _ in 0..LISTS {
        let (n, step) = (random.order(), random.step());
        let rooms = [0; 2].map(|_| random.room(processors(n.min(MOST_LINES))));
        let [mut left, mut right] = rooms.map(|room| vec![FILLED; room]);
        let (mut other_left, mut other_right) = (left.clone(), right.clone());
        let number = calls::pairs(n, step, &mut left, &mut right);
        let expected = pairs(n, step, &mut other_left, &mut other_right);
        let same = left == other_left && right == other_right;
        let told = is_told(&expected, number, FILLED_PLACE);
        tally.count(number_of(&expected), same && told);
    }
    tally.report()
}
