//! The eigenvalues of four coded lines: by plain sweeps, by the array in one call, and by the array tick by tick.
//! First, the most that the array's run can need. It prints what the example in C prints.
use weimrukas::{Array, Forecast, Made, Ran, Refusal};

const N: usize = 4;
const SWEEPS: usize = 16;
const CODES: [u16; N] = [7, 19, 42, 201];

type Matrix = [f64; N * N];

#[rustfmt::skip]
const MATRIX: Matrix = [
    4.00,  1.00, 0.50,  0.25,
    1.00,  3.00, 0.75, -0.50,
    0.50,  0.75, 2.00,  1.25,
    0.25, -0.50, 1.25,  5.00,
];

fn main() -> Result<(), Refusal> {
    forecast()?;
    let (mut result, mut vectors) = ([0.0; N * N], [0.0; N * N]);
    let Ran { sweeps, rounded } =
        weimrukas::plain_run(N, SWEEPS, &MATRIX, &mut result, &mut vectors)?;
    println!("{sweeps} sweeps made of {SWEEPS}, {rounded} pairs rounded");
    run(&result, &vectors)?;
    run_by_hand(&result)?;
    use_sheet()?;
    let mut matrix = MATRIX;
    matrix[N + 2] = f64::NAN;
    if let Err(refusal) = weimrukas::plain_run(N, SWEEPS, &matrix, &mut result, &mut vectors) {
        println!("{refusal}");
    }
    Ok(())
}

fn forecast() -> Result<(), Refusal> {
    let Forecast {
        ticks,
        values,
        parameters,
    } = weimrukas::forecast(N, SWEEPS)?;
    print!("forecast: at most {ticks} ticks, ");
    println!("{values} values set on wires, {parameters} parameters received");
    Ok(())
}

fn run(plain_result: &Matrix, plain_vectors: &Matrix) -> Result<(), Refusal> {
    let (mut result, mut vectors) = ([0.0; N * N], [0.0; N * N]);
    let Made {
        sweeps,
        ticks,
        rounded,
    } = weimrukas::array_run(N, SWEEPS, &MATRIX, &mut result, &mut vectors)?;
    let differ = |x: &Matrix, y: &Matrix| x.map(f64::to_bits) != y.map(f64::to_bits);
    let bits = if differ(&result, plain_result) || differ(&vectors, plain_vectors) {
        "other bits than"
    } else {
        "the same bits as"
    };
    print!("{sweeps} sweeps and {ticks} ticks of the array, {rounded} pairs rounded: ");
    println!("{bits} by plain sweeps");
    for (k, code) in CODES.iter().enumerate() {
        let column = vectors.iter().skip(k).step_by(N);
        let vector: String = column.map(|x| format!(" {x:.6}")).collect();
        let eigenvalue = result[k * N + k];
        println!("line {code}: eigenvalue {eigenvalue:.6}, eigenvector{vector}");
    }
    Ok(())
}

fn run_by_hand(result: &Matrix) -> Result<(), Refusal> {
    let mut array = Array::start(N, SWEEPS, &MATRIX)?;
    while array.tick()? {}
    let cell =
        |i: usize, j: usize| array.words()[weimrukas::tile(i / 2, j / 2) + i % 2 * 2 + j % 2];
    let is_same = |&k: &usize| cell(k / N, k % N) == result[k].to_bits();
    let same = (0..N * N).filter(is_same).count();
    let counted = |k: usize| array.words()[weimrukas::tile(k, k) + weimrukas::TILE_WORDS - 1];
    let rounded: u64 = (0..N.div_ceil(2)).map(counted).sum();
    let (ticks, all) = (array.words()[2], N * N);
    print!("{ticks} ticks by hand: {same} of {all} cells have the same bits, ");
    println!("{rounded} pairs rounded");
    Ok(())
}

/// A sheet of either form fits into the lent bytes.
fn use_sheet() -> Result<(), Refusal> {
    let (mut sheet, mut text) = (
        [0; weimrukas::long_sheet_length(N)],
        [0; weimrukas::text_length(N)],
    );
    let (mut codes, mut matrix) = ([0; N], [0.0; N * N]);
    let written = weimrukas::write_sheet(N, SWEEPS, &CODES, &MATRIX, &mut sheet)?;
    let sheet = &sheet[..written];
    let (n, sweeps) = weimrukas::read_sheet(sheet, &mut codes, &mut matrix)?;
    print!("sheet of {written} bytes: ");
    println!("order {n}, {sweeps} sweeps, first code {}", codes[0]);
    let printed = weimrukas::list(sheet, &mut text)?;
    let print = String::from_utf8_lossy(&text[..printed]);
    let first = print.lines().next().unwrap_or_default();
    println!("listing of {printed} bytes: {first}");
    join_sheet(sheet)
}

/// Joins a sheet with one of other lines, whose second code takes two bytes, and tries to join it with itself.
fn join_sheet(sheet: &[u8]) -> Result<(), Refusal> {
    let mut other = [0; weimrukas::long_sheet_length(2)];
    let mut joint = [0; weimrukas::long_sheet_length(N + 2)];
    weimrukas::write_sheet(2, 4, &[8, 300], &[2.0, 0.5, 0.5, 1.0], &mut other)?;
    let written = weimrukas::join_sheets(sheet, &other, &mut joint)?;
    let (n, sweeps) = (joint[0] % 128, joint[1]);
    println!("joint sheet of {written} bytes: order {n}, {sweeps} sweeps");
    if let Err(refusal) = weimrukas::join_sheets(sheet, sheet, &mut joint) {
        println!("joined with itself: {refusal}");
    }
    Ok(())
}
