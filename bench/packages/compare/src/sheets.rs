//! Sheets of both forms: read, written again, written from any contents, listed.
use crate::expected::{is_number, is_told, same_bits, FILLED, FILLED_PLACE};
use crate::tally::{number_of, Tally};
use draw::{Contents, Random};
use reference::sheet::Form;
use reference::{listing, sheet};
use weimrukas::calls;

/// Sheets of each form.
const SHEETS: usize = 20_000;

const SHORT_SUBJECTS: [&str; 4] = [
    "short sheets read",
    "short sheets written again",
    "short sheets written",
    "listings of short sheets",
];
const LONG_SUBJECTS: [&str; 4] = [
    "long sheets read",
    "long sheets written again",
    "long sheets written",
    "listings of long sheets",
];

pub fn compare(random: &mut Random) -> bool {
    let short = compare_form(Form::Short, SHORT_SUBJECTS, random);
    let long = compare_form(Form::Long, LONG_SUBJECTS, random);
    short && long
}

/// Sheets that are drawn in a form; a damage may give them the other.
fn compare_form(form: Form, subjects: [&'static str; 4], random: &mut Random) -> bool {
    let [name_read, name_again, name_written, name_listed] = subjects;
    let mut read = Tally::new(name_read, &["0", "1", "2", "3", "4", "5"]);
    let mut again = Tally::new(name_again, &["0"]);
    let answers = ["0", "1", "2", "3", "4", "5", "6", "7"];
    let mut written = Tally::new(name_written, &answers);
    let answers = ["0", "1", "2", "3", "4", "5", "7", "8"];
    let mut listed = Tally::new(name_listed, &answers);
    for k in 0..SHEETS {
        let sheet = draw::sheet(k, form, random);
        if let Some(contents) = compare_read(&sheet, random, &mut read) {
            again.count("0", is_written(contents, &sheet));
        }
        compare_write(Contents::any(k, form, random), &mut written);
        compare_list(&sheet, random, &mut listed);
    }
    let reports = [read, again, written, listed].map(Tally::report);
    reports == [true; 4]
}

/// Answers what the library read, where it is not refused, with bytes for a sheet.
fn compare_read(sheet: &[u8], random: &mut Random, tally: &mut Tally) -> Option<Contents> {
    let (mut codes, mut matrix) = draw::read_lent(sheet, random);
    let (mut other_codes, mut other_matrix) = (codes.clone(), matrix.clone());
    let (mut n, mut sweeps, mut place) = (FILLED, FILLED, FILLED_PLACE);
    let number = calls::read_sheet(
        sheet,
        &mut codes,
        &mut matrix,
        &mut n,
        &mut sweeps,
        &mut place,
    );
    let expected = sheet::read(sheet, &mut other_codes, &mut other_matrix);
    let sizes = is_number(expected.map(|(n, _)| n), n)
        && is_number(expected.map(|(_, sweeps)| sweeps), sweeps);
    let same = codes == other_codes && same_bits(&matrix, &other_matrix);
    let told = is_told(&expected, number, place);
    tally.count(number_of(&expected), told && sizes && same);
    expected.ok().map(|_| Contents {
        n,
        sweeps,
        codes,
        matrix,
        sheet: vec![0; sheet.len()],
    })
}

/// Whether the library writes these contents as the given sheet.
fn is_written(mut contents: Contents, sheet: &[u8]) -> bool {
    let (number, written, place) = write(&mut contents);
    let told = number == 0 && written == sheet.len() && place == FILLED_PLACE;
    told && contents.sheet == sheet
}

/// The number, the bytes written and the place.
fn write(contents: &mut Contents) -> (u8, usize, calls::Place) {
    let (mut written, mut place) = (FILLED, FILLED_PLACE);
    let number = calls::write_sheet(
        contents.n,
        contents.sweeps,
        &contents.codes,
        &contents.matrix,
        &mut contents.sheet,
        &mut written,
        &mut place,
    );
    (number, written, place)
}

fn compare_write(mut one: Contents, tally: &mut Tally) {
    let mut other = one.sheet.clone();
    let (number, written, place) = write(&mut one);
    let expected = sheet::write(one.n, one.sweeps, &one.codes, &one.matrix, &mut other);
    let told = is_told(&expected, number, place) && is_number(expected, written);
    let same = told && one.sheet == other;
    tally.count(number_of(&expected), same);
}

fn compare_list(sheet: &[u8], random: &mut Random, tally: &mut Tally) {
    let mut text = draw::text(sheet, random);
    let mut other = text.clone();
    let (mut printed, mut place) = (FILLED, FILLED_PLACE);
    let number = calls::list(sheet, &mut text, &mut printed, &mut place);
    let expected = listing::list(sheet, &mut other);
    let same = printed == expected.unwrap_or(0) && text == other;
    tally.count(
        number_of(&expected),
        is_told(&expected, number, place) && same,
    );
}
