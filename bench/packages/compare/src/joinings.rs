//! Joinings of two sheets, each of either form.
use crate::expected::{is_number, is_told, FILLED, FILLED_PLACE};
use crate::tally::{number_of, Tally};
use draw::{Joining, Random};
use reference::sheet::{self, Form};
use weimrukas::calls;

/// Joinings of each two forms.
const JOININGS: usize = 20_000;

const SUBJECTS: [(&str, [Form; 2]); 4] = [
    ("short sheets joined with short ones", [Form::Short; 2]),
    (
        "short sheets joined with long ones",
        [Form::Short, Form::Long],
    ),
    (
        "long sheets joined with short ones",
        [Form::Long, Form::Short],
    ),
    ("long sheets joined with long ones", [Form::Long; 2]),
];

pub fn compare(random: &mut Random) -> bool {
    SUBJECTS.map(|(name, forms)| compare_forms(name, forms, random)) == [true; SUBJECTS.len()]
}

/// Sheets that are drawn in these forms; a damage or a code of the other may change them.
fn compare_forms(name: &'static str, forms: [Form; 2], random: &mut Random) -> bool {
    let mut tally = Tally::new(name, &["0", "1", "2", "3", "4", "5", "7", "10"]);
    for k in 0..JOININGS {
        compare_join(Joining::any(k, forms, random), &mut tally);
    }
    tally.report()
}

fn compare_join(mut one: Joining, tally: &mut Tally) {
    let mut other = one.sheet.clone();
    let (mut written, mut place) = (FILLED, FILLED_PLACE);
    let number = calls::join_sheets(
        &one.first,
        &one.second,
        &mut one.sheet,
        &mut written,
        &mut place,
    );
    let expected = sheet::join(&one.first, &one.second, &mut other);
    let told = is_told(&expected, number, place) && is_number(expected, written);
    tally.count(number_of(&expected), told && one.sheet == other);
}
