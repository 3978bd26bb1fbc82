//! The printed sheet (document 01, "The printed sheet"; document 02, quiet sweeps).
use crate::sizes::text_length;
use crate::{array, checks, sheet};
use crate::{Refusal, Way};
use std::fmt::Write;

/// Puts the printed sheet into a lent text and answers how many bytes it has. A refusal leaves the text as it was.
pub fn list(sheet: &[u8], text: &mut [u8]) -> Result<usize, Refusal> {
    let print = printed(sheet, text.len())?;
    text[..print.len()].copy_from_slice(print.as_bytes());
    Ok(print.len())
}

fn printed(bytes: &[u8], room: usize) -> Result<String, Refusal> {
    let (_, n) = sheet::head_in(bytes);
    let (mut codes, mut matrix) = (vec![0; n], vec![0.0; n * n]);
    let (n, sweeps) = sheet::read(bytes, &mut codes, &mut matrix)?;
    checks::room(room, text_length(n))?;
    let (mut result, mut vectors) = (vec![0.0; n * n], vec![0.0; n * n]);
    let made = array::run(n, sweeps, &matrix, &mut result, &mut vectors, Way::Whole)?;
    let mut print = format!("{n} {sweeps} {}\n", made.ticks);
    for (k, code) in codes.iter().enumerate() {
        let column = vectors.iter().skip(k).step_by(n);
        write!(print, "{code}").expect("a string grows");
        for x in [&result[k * n + k]].into_iter().chain(column) {
            write!(print, " {:016X}", x.to_bits()).expect("a string grows");
        }
        print.push('\n');
    }
    Ok(print)
}
