//! The array by hand: starts, ticks after a start, and ticks of any words.
use crate::expected::{is_told, FILLED_BYTE, FILLED_PLACE};
use crate::tally::{number_of, Tally};
use draw::{Lent, Random};
use reference::by_hand;
use reference::sizes::ticks;
use reference::Refusal;
use weimrukas::calls;

const RECORDS: usize = 4_000;
/// Ticks beyond the last of a run, and ticks of a record of any words.
const MORE_TICKS: usize = 3;

/// Runs by hand.
pub struct ByHand {
    starts: Tally,
    ticks: Tally,
}

impl Default for ByHand {
    fn default() -> ByHand {
        ByHand {
            starts: Tally::new("starts", &["0", "1", "2", "3", "5", "6"]),
            ticks: Tally::new("ticks after a start", &["made", "stopped", "1", "3"]),
        }
    }
}

impl ByHand {
    /// Compares a start, all its ticks and some more, all words after each.
    pub fn compare(&mut self, lent: &Lent, random: &mut Random) {
        let mut one = random.words();
        let mut other = one.clone();
        let mut place = FILLED_PLACE;
        let number = calls::array_start(lent.n, lent.sweeps, &lent.matrix, &mut one, &mut place);
        let expected = by_hand::start(lent.n, lent.sweeps, &lent.matrix, &mut other);
        let same = is_told(&expected, number, place) && one == other;
        self.starts.count(number_of(&expected), same);
        let run = expected.map_or(0, |()| ticks(lent.n, lent.sweeps));
        for _ in 0..run + MORE_TICKS {
            compare_tick(&mut one, &mut other, &mut self.ticks);
        }
    }

    pub fn report(self) -> bool {
        let starts = self.starts.report();
        self.ticks.report() && starts
    }
}

/// Ticks of any words.
pub fn compare(random: &mut Random) -> bool {
    let answers = ["made", "stopped", "1", "2", "3"];
    let mut tally = Tally::new("ticks of any words", &answers);
    for _ in 0..RECORDS {
        let mut one = random.record();
        let mut other = one.clone();
        for _ in 0..MORE_TICKS {
            compare_tick(&mut one, &mut other, &mut tally);
        }
    }
    tally.report()
}

fn compare_tick(one: &mut [u64], other: &mut [u64], tally: &mut Tally) {
    let mut made = FILLED_BYTE;
    let number = calls::array_tick(one, &mut made);
    let expected = by_hand::tick(other);
    let told = is_told(&expected, number, FILLED_PLACE);
    let same = made == expected.unwrap_or(false) as u8 && one == other;
    tally.count(answer_of(&expected), told && same);
}

fn answer_of(expected: &Result<bool, Refusal>) -> &'static str {
    match expected {
        Ok(true) => "made",
        Ok(false) => "stopped",
        Err(_) => number_of(expected),
    }
}
