//! The reader and the writer of sheets (document 01, "A sheet"; document 02, line codes above 255 and odd orders), and the
//! joining of two (document 02).
use crate::checks;
use crate::sizes::{long_sheet_length, sheet_length, MOST_LINES};
use crate::Refusal;

/// Where the codes begin, after the order and the sweeps.
const HEAD: usize = 2;
/// The bytes of an entry.
const ENTRY: usize = 8;
/// What the first byte of a long sheet is above its order.
const LONG: u8 = 128;

/// Codes of one byte each, or of two, the highest first.
#[derive(Clone, Copy, Debug, PartialEq, Eq)]
pub enum Form {
    Short,
    Long,
}

impl Form {
    /// The form that codes are written in.
    pub fn of_codes(codes: &[u16]) -> Form {
        match codes.iter().max() {
            Some(256..) => Form::Long,
            _ => Form::Short,
        }
    }

    fn of_first(first: u8) -> Form {
        if first < LONG {
            Form::Short
        } else {
            Form::Long
        }
    }

    /// The length of a sheet of order n.
    pub const fn length(self, n: usize) -> usize {
        match self {
            Form::Short => sheet_length(n),
            Form::Long => long_sheet_length(n),
        }
    }

    /// The first byte of a sheet of order n.
    pub fn first(self, n: usize) -> u8 {
        match self {
            Form::Short => n as u8,
            Form::Long => LONG + n as u8,
        }
    }

    /// The bytes of a code.
    pub const fn width(self) -> usize {
        match self {
            Form::Short => 1,
            Form::Long => 2,
        }
    }
}

/// The form and the order in a sheet, and order 0 where there is none.
pub fn head_in(sheet: &[u8]) -> (Form, usize) {
    let first = sheet.first().copied().unwrap_or(0);
    (Form::of_first(first), (first % LONG) as usize)
}

/// The parts of a sheet that is not refused.
struct Parts<'a> {
    form: Form,
    n: usize,
    sweeps: u8,
    codes: [u16; MOST_LINES],
    /// The bytes of the lower triangle.
    stored: &'a [u8],
}

impl<'a> Parts<'a> {
    /// Takes a sheet apart. Where codes and a matrix are lent beside it, their lengths are tested too.
    fn of(sheet: &'a [u8], lent: Option<(usize, usize)>) -> Result<Parts<'a>, Refusal> {
        let [_, sweeps, ..] = *sheet else {
            return Err(Refusal::of(3));
        };
        let (form, n) = head_in(sheet);
        checks::order(n)?;
        checks::sweeps(sweeps.into())?;
        let (lent_codes, lent_matrix) = lent.unwrap_or((n, n * n));
        checks::lengths(&[
            (lent_codes, n),
            (lent_matrix, n * n),
            (sheet.len(), form.length(n)),
        ])?;
        let (stored_codes, stored) = sheet[HEAD..].split_at(form.width() * n);
        let mut codes = [0; MOST_LINES];
        fetch_codes(form, stored_codes, &mut codes[..n]);
        checks::codes(&codes[..n])?;
        checks::form(form, Form::of_codes(&codes[..n]))?;
        test_stored(n, stored)?;
        Ok(Parts {
            form,
            n,
            sweeps,
            codes,
            stored,
        })
    }

    fn codes(&self) -> &[u16] {
        &self.codes[..self.n]
    }
}

/// Reads a sheet into lent codes and a lent matrix, and answers the order and the sweeps.
pub fn read(
    sheet: &[u8],
    codes: &mut [u16],
    matrix: &mut [f64],
) -> Result<(usize, usize), Refusal> {
    let parts = Parts::of(sheet, Some((codes.len(), matrix.len())))?;
    let n = parts.n;
    codes.copy_from_slice(parts.codes());
    for (i, row) in rows(n, parts.stored) {
        for (j, x) in row.chunks_exact(ENTRY).map(value).enumerate() {
            matrix[i * n + j] = x;
            matrix[j * n + i] = x;
        }
    }
    Ok((n, parts.sweeps.into()))
}

fn fetch_codes(form: Form, stored: &[u8], codes: &mut [u16]) {
    for (k, code) in codes.iter_mut().enumerate() {
        *code = match form {
            Form::Short => stored[k].into(),
            Form::Long => u16::from_be_bytes([stored[2 * k], stored[2 * k + 1]]),
        };
    }
}

fn store_codes(form: Form, codes: &[u16], stored: &mut [u8]) {
    for (k, code) in codes.iter().enumerate() {
        match form {
            Form::Short => stored[k] = *code as u8,
            Form::Long => stored[2 * k..][..2].copy_from_slice(&code.to_be_bytes()),
        }
    }
}

/// The bytes of the lower triangle, row by row.
fn rows(n: usize, stored: &[u8]) -> impl Iterator<Item = (usize, &[u8])> {
    (0..n).map(move |i| {
        let first = i * (i + 1) / 2;
        (i, &stored[ENTRY * first..][..ENTRY * (i + 1)])
    })
}

fn value(bytes: &[u8]) -> f64 {
    f64::from_be_bytes(bytes.try_into().expect("eight bytes"))
}

fn test_stored(n: usize, stored: &[u8]) -> Result<(), Refusal> {
    for (i, row) in rows(n, stored) {
        let mut entries = row.chunks_exact(ENTRY).map(value);
        if let Some(j) = entries.position(|x| !x.is_finite()) {
            return Err(Refusal::at(5, i + 1, j + 1));
        }
    }
    Ok(())
}

/// Writes a sheet into lent bytes and answers how many it has. Those beyond it stay.
pub fn write(
    n: usize,
    sweeps: usize,
    codes: &[u16],
    matrix: &[f64],
    sheet: &mut [u8],
) -> Result<usize, Refusal> {
    checks::order(n)?;
    checks::sweeps(sweeps)?;
    checks::lengths(&[(codes.len(), n), (matrix.len(), n * n)])?;
    checks::codes(codes)?;
    checks::entries(n, matrix)?;
    let form = Form::of_codes(codes);
    let length = form.length(n);
    checks::room(sheet.len(), length)?;
    (sheet[0], sheet[1]) = (form.first(n), sweeps as u8);
    let (stored_codes, stored) = sheet[HEAD..].split_at_mut(form.width() * n);
    store_codes(form, codes, stored_codes);
    let lower = (0..n).flat_map(|i| &matrix[i * n..][..i + 1]);
    for (bytes, x) in stored.chunks_exact_mut(ENTRY).zip(lower) {
        bytes.copy_from_slice(&x.to_be_bytes());
    }
    Ok(length)
}

/// Joins two sheets into lent bytes and answers how many the joint sheet has. Those beyond it stay.
pub fn join(first: &[u8], second: &[u8], sheet: &mut [u8]) -> Result<usize, Refusal> {
    let first = Parts::of(first, None)?;
    let second = Parts::of(second, None)?;
    checks::apart(first.codes(), second.codes())?;
    let n = first.n + second.n;
    checks::order(n)?;
    let form = match (first.form, second.form) {
        (Form::Short, Form::Short) => Form::Short,
        _ => Form::Long,
    };
    let length = form.length(n);
    checks::room(sheet.len(), length)?;
    (sheet[0], sheet[1]) = (form.first(n), first.sweeps.max(second.sweeps));
    let (stored_codes, stored) = sheet[HEAD..length].split_at_mut(form.width() * n);
    let (own, others) = stored_codes.split_at_mut(form.width() * first.n);
    store_codes(form, first.codes(), own);
    store_codes(form, second.codes(), others);
    store_blocks(&first, &second, stored);
    Ok(length)
}

/// Stores the lower triangle of both matrices on one diagonal: in each row of the second, zeros stand before its entries.
fn store_blocks(first: &Parts, second: &Parts, stored: &mut [u8]) {
    let (own, mut rest) = stored.split_at_mut(first.stored.len());
    own.copy_from_slice(first.stored);
    for (_, row) in rows(second.n, second.stored) {
        let (zeros, after) = rest.split_at_mut(ENTRY * first.n);
        let (entries, below) = after.split_at_mut(row.len());
        zeros.fill(0);
        entries.copy_from_slice(row);
        rest = below;
    }
}
