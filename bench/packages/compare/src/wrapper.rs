//! The functions of `weimrukas`, which a Rust program calls.
use crate::expected::{same_bits, FILLED};
use crate::tally::{number_of, Tally};
use draw::{Contents, Joining, Lent, Random};
use reference::array::{self, Made};
use reference::sizes::{ARRAY_WORDS, MOST_TILES};
use reference::{by_hand, forecast, listing, ordering, plain, records, root, rotation, sheet};
use reference::{Refusal, Way};
use weimrukas::{Array, Found, Parameters, Ran};

const DRAWS: usize = 1_000;

pub fn compare(random: &mut Random) -> bool {
    let answers = ["0", "1", "2", "3", "4", "5", "6", "7", "8", "9", "10"];
    let mut tally = Tally::new("functions for Rust", &answers);
    for _ in 0..DRAWS {
        let k = random.below(Lent::EACH);
        compare_numbers(random, &mut tally);
        compare_step(&Lent::any(k, random), random, &mut tally);
        compare_forecast(&Lent::any(k, random), &mut tally);
        compare_runs(Lent::any(k, random), &mut tally);
        compare_by_hand(&Lent::any(k, random), &mut tally);
        let form = random.form();
        let sheet = draw::sheet(k, form, random);
        compare_read(&sheet, random, &mut tally);
        compare_list(&sheet, random, &mut tally);
        compare_write(Contents::any(k, form, random), &mut tally);
        let forms = [form, random.form()];
        compare_join(&Joining::any(k, forms, random), &mut tally);
    }
    tally.report()
}

/// Counts two answers, and whether what they leave is the same.
fn count<T: PartialEq>(
    tally: &mut Tally,
    answer: Result<T, weimrukas::Refusal>,
    expected: Result<T, Refusal>,
    same: bool,
) {
    let answer = answer.map_err(|weimrukas::Refusal { number, place }| Refusal { number, place });
    tally.count(number_of(&expected), answer == expected && same);
}

fn compare_numbers(random: &mut Random, tally: &mut Tally) {
    let x = random.pattern();
    let answer = weimrukas::root(x).map(|root| (root.value.to_bits(), root.exact));
    let expected = root::nearest(x).map(|root| (root.value.to_bits(), root.exact));
    count(tally, answer, expected, true);
    let [a, d, b] = random.pair();
    let expected = rotation::parameters(a, d, b);
    let Found { parameters, exact } = weimrukas::parameters(a, d, b);
    let same = match parameters {
        Parameters::Still => expected.turn.is_none(),
        Parameters::Turn(t, c, s) => {
            expected.turn.is_some() && same_bits(&[t, c, s], &rotation::recorded(expected.turn))
        }
    };
    count(tally, Ok(exact), Ok(expected.exact), same);
}

fn compare_step(lent: &Lent, random: &mut Random, tally: &mut Tally) {
    let step = random.step();
    let [mut one, mut other] = [(); 2].map(|_| [[FILLED; MOST_TILES]; 2]);
    let [left, right] = &mut one;
    let answer = weimrukas::pairs(lent.n, step, left, right);
    let [left, right] = &mut other;
    let expected = ordering::pairs(lent.n, step, left, right);
    count(tally, answer, expected, one == other);
    compare_records(lent, step, random, tally);
}

/// The flags are lent true or false, and of more, as many or fewer processors than there are.
fn compare_records(lent: &Lent, step: usize, random: &mut Random, tally: &mut Tally) {
    let flags = [false, true].map(|flag| (flag, random.below(MOST_TILES + 4)));
    for (flag, room) in flags {
        let (mut one, mut exact) = (random.filled(3 * MOST_TILES), vec![flag; room]);
        let (mut other, mut bytes) = (one.clone(), vec![flag as u8; room]);
        let answer = weimrukas::records(lent.n, &lent.matrix, step, &mut one, &mut exact);
        let expected = records::of_step(lent.n, &lent.matrix, step, &mut other, &mut bytes);
        let same = exact.iter().map(|flag| *flag as u8).eq(bytes);
        count(tally, answer, expected, same && same_bits(&one, &other));
    }
}

fn compare_forecast(lent: &Lent, tally: &mut Tally) {
    let answer = weimrukas::forecast(lent.n, lent.sweeps);
    let expected = forecast::of_run(lent.n, lent.sweeps);
    count(
        tally,
        answer.map(|told| [told.ticks, told.values, told.parameters]),
        expected.map(|told| [told.ticks, told.values, told.parameters]),
        true,
    );
}

fn compare_runs(lent: Lent, tally: &mut Tally) {
    let (n, sweeps, matrix) = (lent.n, lent.sweeps, lent.matrix);
    let [mut one, mut other] = [(); 2].map(|_| [lent.result.clone(), lent.vectors.clone()]);
    let [result, vectors] = &mut one;
    let answer = weimrukas::plain_run(n, sweeps, &matrix, result, vectors);
    let [result, vectors] = &mut other;
    let expected = plain::run(n, sweeps, &matrix, result, vectors, Way::Short);
    count(
        tally,
        answer.map(|Ran { sweeps, rounded }| plain::Made { sweeps, rounded }),
        expected,
        same_bits(&one.concat(), &other.concat()),
    );
    let [result, vectors] = &mut one;
    let answer = weimrukas::array_run(n, sweeps, &matrix, result, vectors);
    let [result, vectors] = &mut other;
    let expected = array::run(n, sweeps, &matrix, result, vectors, Way::Short);
    count(
        tally,
        answer.map(|made| Made {
            sweeps: made.sweeps,
            ticks: made.ticks,
            rounded: made.rounded,
        }),
        expected,
        same_bits(&one.concat(), &other.concat()),
    );
}

/// A start and one tick, and a tick of too few words.
fn compare_by_hand(lent: &Lent, tally: &mut Tally) {
    let mut words = vec![0; ARRAY_WORDS];
    let expected = by_hand::start(lent.n, lent.sweeps, &lent.matrix, &mut words);
    let answer = Array::start(lent.n, lent.sweeps, &lent.matrix);
    let mut array = match &answer {
        Ok(array) => array.clone(),
        Err(_) => Array::of_words(vec![0; 5].into()),
    };
    words.truncate(array.words().len());
    count(tally, answer.map(|_| ()), expected, array.words() == words);
    let (answer, expected) = (array.tick(), by_hand::tick(&mut words));
    count(tally, answer, expected, array.words() == words);
}

fn compare_read(sheet: &[u8], random: &mut Random, tally: &mut Tally) {
    let (mut codes, mut matrix) = draw::read_lent(sheet, random);
    let (mut other_codes, mut other_matrix) = (codes.clone(), matrix.clone());
    let answer = weimrukas::read_sheet(sheet, &mut codes, &mut matrix);
    let expected = sheet::read(sheet, &mut other_codes, &mut other_matrix);
    let same = codes == other_codes && same_bits(&matrix, &other_matrix);
    count(tally, answer, expected, same);
}

fn compare_write(lent: Contents, tally: &mut Tally) {
    let (mut one, mut other) = (lent.sheet.clone(), lent.sheet);
    let answer = weimrukas::write_sheet(lent.n, lent.sweeps, &lent.codes, &lent.matrix, &mut one);
    let expected = sheet::write(lent.n, lent.sweeps, &lent.codes, &lent.matrix, &mut other);
    count(tally, answer, expected, one == other);
}

fn compare_join(lent: &Joining, tally: &mut Tally) {
    let (mut one, mut other) = (lent.sheet.clone(), lent.sheet.clone());
    let answer = weimrukas::join_sheets(&lent.first, &lent.second, &mut one);
    let expected = sheet::join(&lent.first, &lent.second, &mut other);
    count(tally, answer, expected, one == other);
}

fn compare_list(sheet: &[u8], random: &mut Random, tally: &mut Tally) {
    let mut text = draw::text(sheet, random);
    let mut other = text.clone();
    let answer = weimrukas::list(sheet, &mut text);
    let expected = listing::list(sheet, &mut other);
    count(tally, answer, expected, text == other);
}
