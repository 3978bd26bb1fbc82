//! The functions of `weimrukas.h` one by one, each with a slice for a pointer with its length, a `Place` for row and
//! column, and a reference for any other pointer. These are never null, have their true length, and what may be written
//! is lent alone: what the header asks of a caller holds for every call. They answer the header's numbers.
#![allow(unsafe_code)]

/// The row and the column of an entry, from 1. Only the refusals 5 and 6 set them.
#[derive(Clone, Copy, Debug, Default, PartialEq, Eq)]
pub struct Place {
    pub row: usize,
    pub column: usize,
}

extern "C" {
    fn weimrukas_root(x: f64, root: *mut f64, exact: *mut u8) -> u8;
    fn weimrukas_parameters(
        a: f64,
        d: f64,
        b: f64,
        turn: *mut u8,
        t: *mut f64,
        c: *mut f64,
        s: *mut f64,
        exact: *mut u8,
    );
    fn weimrukas_pairs(
        n: usize,
        step: usize,
        left: *mut usize,
        left_length: usize,
        right: *mut usize,
        right_length: usize,
    ) -> u8;
    fn weimrukas_records(
        n: usize,
        matrix: *const f64,
        matrix_length: usize,
        step: usize,
        records: *mut f64,
        records_length: usize,
        exact: *mut u8,
        exact_length: usize,
        row: *mut usize,
        column: *mut usize,
    ) -> u8;
    fn weimrukas_plain_run(
        n: usize,
        sweeps: usize,
        matrix: *const f64,
        matrix_length: usize,
        result: *mut f64,
        result_length: usize,
        vectors: *mut f64,
        vectors_length: usize,
        sweeps_made: *mut usize,
        rounded: *mut usize,
        row: *mut usize,
        column: *mut usize,
    ) -> u8;
    fn weimrukas_array_run(
        n: usize,
        sweeps: usize,
        matrix: *const f64,
        matrix_length: usize,
        result: *mut f64,
        result_length: usize,
        vectors: *mut f64,
        vectors_length: usize,
        sweeps_made: *mut usize,
        ticks: *mut usize,
        rounded: *mut usize,
        row: *mut usize,
        column: *mut usize,
    ) -> u8;
    fn weimrukas_forecast(
        n: usize,
        sweeps: usize,
        ticks: *mut usize,
        values: *mut usize,
        parameters: *mut usize,
    ) -> u8;
    fn weimrukas_read_sheet(
        sheet: *const u8,
        sheet_length: usize,
        codes: *mut u16,
        codes_length: usize,
        matrix: *mut f64,
        matrix_length: usize,
        n: *mut usize,
        sweeps: *mut usize,
        row: *mut usize,
        column: *mut usize,
    ) -> u8;
    fn weimrukas_write_sheet(
        n: usize,
        sweeps: usize,
        codes: *const u16,
        codes_length: usize,
        matrix: *const f64,
        matrix_length: usize,
        sheet: *mut u8,
        sheet_length: usize,
        written: *mut usize,
        row: *mut usize,
        column: *mut usize,
    ) -> u8;
    fn weimrukas_join_sheets(
        first: *const u8,
        first_length: usize,
        second: *const u8,
        second_length: usize,
        sheet: *mut u8,
        sheet_length: usize,
        written: *mut usize,
        row: *mut usize,
        column: *mut usize,
    ) -> u8;
    fn weimrukas_list(
        sheet: *const u8,
        sheet_length: usize,
        text: *mut u8,
        text_length: usize,
        printed: *mut usize,
        row: *mut usize,
        column: *mut usize,
    ) -> u8;
    fn weimrukas_array_start(
        n: usize,
        sweeps: usize,
        matrix: *const f64,
        matrix_length: usize,
        words: *mut u64,
        words_length: usize,
        row: *mut usize,
        column: *mut usize,
    ) -> u8;
    fn weimrukas_array_tick(words: *mut u64, words_length: usize, made: *mut u8) -> u8;
}

pub fn root(x: f64, root: &mut f64, exact: &mut u8) -> u8 {
    unsafe { weimrukas_root(x, root, exact) }
}

pub fn parameters(
    a: f64,
    d: f64,
    b: f64,
    turn: &mut u8,
    t: &mut f64,
    c: &mut f64,
    s: &mut f64,
    exact: &mut u8,
) {
    unsafe { weimrukas_parameters(a, d, b, turn, t, c, s, exact) }
}

pub fn pairs(n: usize, step: usize, left: &mut [usize], right: &mut [usize]) -> u8 {
    unsafe {
        weimrukas_pairs(
            n,
            step,
            left.as_mut_ptr(),
            left.len(),
            right.as_mut_ptr(),
            right.len(),
        )
    }
}

pub fn records(
    n: usize,
    matrix: &[f64],
    step: usize,
    records: &mut [f64],
    exact: &mut [u8],
    place: &mut Place,
) -> u8 {
    unsafe {
        weimrukas_records(
            n,
            matrix.as_ptr(),
            matrix.len(),
            step,
            records.as_mut_ptr(),
            records.len(),
            exact.as_mut_ptr(),
            exact.len(),
            &mut place.row,
            &mut place.column,
        )
    }
}

pub fn plain_run(
    n: usize,
    sweeps: usize,
    matrix: &[f64],
    result: &mut [f64],
    vectors: &mut [f64],
    sweeps_made: &mut usize,
    rounded: &mut usize,
    place: &mut Place,
) -> u8 {
    unsafe {
        weimrukas_plain_run(
            n,
            sweeps,
            matrix.as_ptr(),
            matrix.len(),
            result.as_mut_ptr(),
            result.len(),
            vectors.as_mut_ptr(),
            vectors.len(),
            sweeps_made,
            rounded,
            &mut place.row,
            &mut place.column,
        )
    }
}

pub fn array_run(
    n: usize,
    sweeps: usize,
    matrix: &[f64],
    result: &mut [f64],
    vectors: &mut [f64],
    sweeps_made: &mut usize,
    ticks: &mut usize,
    rounded: &mut usize,
    place: &mut Place,
) -> u8 {
    unsafe {
        weimrukas_array_run(
            n,
            sweeps,
            matrix.as_ptr(),
            matrix.len(),
            result.as_mut_ptr(),
            result.len(),
            vectors.as_mut_ptr(),
            vectors.len(),
            sweeps_made,
            ticks,
            rounded,
            &mut place.row,
            &mut place.column,
        )
    }
}

pub fn forecast(
    n: usize,
    sweeps: usize,
    ticks: &mut usize,
    values: &mut usize,
    parameters: &mut usize,
) -> u8 {
    unsafe { weimrukas_forecast(n, sweeps, ticks, values, parameters) }
}

pub fn read_sheet(
    sheet: &[u8],
    codes: &mut [u16],
    matrix: &mut [f64],
    n: &mut usize,
    sweeps: &mut usize,
    place: &mut Place,
) -> u8 {
    unsafe {
        weimrukas_read_sheet(
            sheet.as_ptr(),
            sheet.len(),
            codes.as_mut_ptr(),
            codes.len(),
            matrix.as_mut_ptr(),
            matrix.len(),
            n,
            sweeps,
            &mut place.row,
            &mut place.column,
        )
    }
}

pub fn write_sheet(
    n: usize,
    sweeps: usize,
    codes: &[u16],
    matrix: &[f64],
    sheet: &mut [u8],
    written: &mut usize,
    place: &mut Place,
) -> u8 {
    unsafe {
        weimrukas_write_sheet(
            n,
            sweeps,
            codes.as_ptr(),
            codes.len(),
            matrix.as_ptr(),
            matrix.len(),
            sheet.as_mut_ptr(),
            sheet.len(),
            written,
            &mut place.row,
            &mut place.column,
        )
    }
}

pub fn join_sheets(
    first: &[u8],
    second: &[u8],
    sheet: &mut [u8],
    written: &mut usize,
    place: &mut Place,
) -> u8 {
    unsafe {
        weimrukas_join_sheets(
            first.as_ptr(),
            first.len(),
            second.as_ptr(),
            second.len(),
            sheet.as_mut_ptr(),
            sheet.len(),
            written,
            &mut place.row,
            &mut place.column,
        )
    }
}

pub fn list(sheet: &[u8], text: &mut [u8], printed: &mut usize, place: &mut Place) -> u8 {
    unsafe {
        weimrukas_list(
            sheet.as_ptr(),
            sheet.len(),
            text.as_mut_ptr(),
            text.len(),
            printed,
            &mut place.row,
            &mut place.column,
        )
    }
}

pub fn array_start(
    n: usize,
    sweeps: usize,
    matrix: &[f64],
    words: &mut [u64],
    place: &mut Place,
) -> u8 {
    unsafe {
        weimrukas_array_start(
            n,
            sweeps,
            matrix.as_ptr(),
            matrix.len(),
            words.as_mut_ptr(),
            words.len(),
            &mut place.row,
            &mut place.column,
        )
    }
}

pub fn array_tick(words: &mut [u64], made: &mut u8) -> u8 {
    unsafe { weimrukas_array_tick(words.as_mut_ptr(), words.len(), made) }
}
