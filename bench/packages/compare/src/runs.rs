//! The plain run, the array's run, runs by hand and the records of a step, on the same matrices.
use crate::arrays;
use crate::expected::{is_number, is_told, same_bits, FILLED, FILLED_BYTE, FILLED_PLACE};
use crate::tally::{number_of, Tally};
use draw::{Lent, Random};
use reference::plain::Made;
use reference::sizes::{processors, MOST_LINES};
use reference::{array, plain, records, Refusal, Way};
use weimrukas::calls;

const MATRICES: usize = 20_000;
/// One matrix of so many is run by hand too.
const BY_HAND: usize = 10;
/// The answer of a run that ends before its last sweep, and that of another in which no root was rounded.
const EARLY: &str = "0 early";
const EXACT: &str = "0 exact";

pub fn compare(random: &mut Random) -> bool {
    let run_answers = ["0", EARLY, EXACT, "1", "2", "3", "5", "6", "8"];
    let mut plain = Tally::new("plain runs", &run_answers);
    let mut array = Tally::new("array runs", &run_answers);
    let mut records = Tally::new("records", &["0", "1", "3", "5", "6", "7"]);
    let mut by_hand = arrays::ByHand::default();
    for k in 0..MATRICES {
        let lent = Lent::any(k, random);
        let (plain_left, made) = compare_plain(&lent, &mut plain);
        compare_array(&lent, plain_left, made, &mut array);
        compare_records(&lent, random, &mut records);
        if random.one_in(BY_HAND) {
            by_hand.compare(&lent, random);
        }
    }
    let reports = [plain, array, records].map(Tally::report);
    by_hand.report() && reports == [true; 3]
}

/// Answers what the library's plain run leaves, and the numbers of sweeps and of rounded pairs that it tells.
fn compare_plain(lent: &Lent, tally: &mut Tally) -> (Lent, [usize; 2]) {
    let (mut one, mut other) = (lent.clone(), lent.clone());
    let ([mut sweeps, mut rounded], mut place) = ([FILLED; 2], FILLED_PLACE);
    let number = calls::plain_run(
        one.n,
        one.sweeps,
        &one.matrix,
        &mut one.result,
        &mut one.vectors,
        &mut sweeps,
        &mut rounded,
        &mut place,
    );
    let expected = plain::run(
        other.n,
        other.sweeps,
        &other.matrix,
        &mut other.result,
        &mut other.vectors,
        Way::Whole,
    );
    let told = is_told(&expected, number, place)
        && is_number(expected.map(|made| made.sweeps), sweeps)
        && is_number(expected.map(|made| made.rounded), rounded);
    let same = have_same_results(&one, &other);
    tally.count(answer_of(lent.sweeps, expected), told && same);
    (one, [sweeps, rounded])
}

/// Both the reference's array and the library's plain run leave the same, make as many sweeps and meet as many rounded
/// pairs.
fn compare_array(lent: &Lent, plain_left: Lent, plain_told: [usize; 2], tally: &mut Tally) {
    let (mut one, mut other) = (lent.clone(), lent.clone());
    let ([mut sweeps, mut ticks, mut rounded], mut place) = ([FILLED; 3], FILLED_PLACE);
    let number = calls::array_run(
        one.n,
        one.sweeps,
        &one.matrix,
        &mut one.result,
        &mut one.vectors,
        &mut sweeps,
        &mut ticks,
        &mut rounded,
        &mut place,
    );
    let expected = array::run(
        other.n,
        other.sweeps,
        &other.matrix,
        &mut other.result,
        &mut other.vectors,
        Way::Whole,
    );
    let told = is_told(&expected, number, place)
        && is_number(expected.map(|made| made.sweeps), sweeps)
        && is_number(expected.map(|made| made.ticks), ticks)
        && is_number(expected.map(|made| made.rounded), rounded)
        && [sweeps, rounded] == plain_told;
    let same = have_same_results(&one, &other) && have_same_results(&one, &plain_left);
    let made = expected.map(
        |array::Made {
             sweeps, rounded, ..
         }| Made { sweeps, rounded },
    );
    tally.count(answer_of(lent.sweeps, made), told && same);
}

/// The number that is answered, and whether the run made fewer sweeps than were asked for, or no root was rounded.
fn answer_of(sweeps: usize, made: Result<Made, Refusal>) -> &'static str {
    match made {
        Ok(made) if made.sweeps < sweeps => EARLY,
        Ok(made) if made.rounded == 0 => EXACT,
        _ => number_of(&made),
    }
}

fn have_same_results(one: &Lent, other: &Lent) -> bool {
    same_bits(&one.result, &other.result) && same_bits(&one.vectors, &other.vectors)
}

fn compare_records(lent: &Lent, random: &mut Random, tally: &mut Tally) {
    let (n, step) = (lent.n, random.step());
    let processors = processors(n.min(MOST_LINES));
    let (room, flags) = (random.room(3 * processors), random.room(processors));
    let (mut one, mut exact) = (random.filled(room), vec![FILLED_BYTE; flags]);
    let (mut other, mut other_exact) = (one.clone(), exact.clone());
    let mut place = FILLED_PLACE;
    let number = calls::records(n, &lent.matrix, step, &mut one, &mut exact, &mut place);
    let expected = records::of_step(n, &lent.matrix, step, &mut other, &mut other_exact);
    let same = same_bits(&one, &other) && exact == other_exact;
    let told = is_told(&expected, number, place);
    tally.count(number_of(&expected), told && same);
}
