//! Reading, writing and joining sheets of both forms.
use crate::orders::{self, Call};
use draw::{Contents, Joining, Lent, Random};
use measure::matrices::SWEEPS;
use measure::rounds::{fastest, round, shown};
use reference::sheet::{self, Form};

const SHEETS: usize = 64;
/// The orders of two sheets that are joined.
const JOINED: [[usize; 2]; 2] = [[2, 2], [16, 16]];

pub fn measure(random: &mut Random) {
    let calls: [Call<Contents>; 4] = [library_read, reference_read, library_write, reference_write];
    let forms = [
        (Form::Short, ["read short sheet", "write short sheet"]),
        (Form::Long, ["read long sheet", "write long sheet"]),
    ];
    for (form, names) in forms {
        orders::measure(names, calls, |n| {
            (0..SHEETS).map(|_| drawn(n, form, random)).collect()
        });
    }
}

/// Two sheets to one.
pub fn measure_joinings(random: &mut Random) {
    println!("| call | orders | library | reference | library / reference |");
    println!("|---|---|---|---|---|");
    for (form, name) in [(Form::Short, "short"), (Form::Long, "long")] {
        for orders in JOINED {
            let mut draw = || {
                let runs = orders.map(|n| Lent::drawn(n, SWEEPS, random, Random::unit));
                Joining::of_runs(runs, [form; 2], random)
            };
            let all: Vec<Joining> = (0..SHEETS).map(|_| draw()).collect();
            let [library, reference] =
                fastest([round(&all, library_join), round(&all, reference_join)]);
            println!(
                "| join {name} sheets | {} and {} | {} | {} | {:.2} |",
                orders[0],
                orders[1],
                shown(library),
                shown(reference),
                library / reference
            );
        }
    }
}

/// Contents, and their sheet.
fn drawn(n: usize, form: Form, random: &mut Random) -> Contents {
    let lent = Lent::drawn(n, SWEEPS, random, Random::unit);
    let mut contents = Contents::of_run(lent, form, random);
    assert!(reference_write(&mut contents), "the contents are valid");
    contents
}

fn library_read(lent: &mut Contents) -> bool {
    weimrukas::read_sheet(&lent.sheet, &mut lent.codes, &mut lent.matrix).is_ok()
}

fn reference_read(lent: &mut Contents) -> bool {
    sheet::read(&lent.sheet, &mut lent.codes, &mut lent.matrix).is_ok()
}

fn library_write(lent: &mut Contents) -> bool {
    let (codes, matrix) = (&lent.codes, &lent.matrix);
    weimrukas::write_sheet(lent.n, lent.sweeps, codes, matrix, &mut lent.sheet).is_ok()
}

fn reference_write(lent: &mut Contents) -> bool {
    let (codes, matrix) = (&lent.codes, &lent.matrix);
    sheet::write(lent.n, lent.sweeps, codes, matrix, &mut lent.sheet).is_ok()
}

fn library_join(lent: &mut Joining) -> bool {
    weimrukas::join_sheets(&lent.first, &lent.second, &mut lent.sheet).is_ok()
}

fn reference_join(lent: &mut Joining) -> bool {
    sheet::join(&lent.first, &lent.second, &mut lent.sheet).is_ok()
}
