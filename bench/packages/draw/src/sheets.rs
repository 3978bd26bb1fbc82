//! Draws of sheets, and of what their reader, their writer and the listing are lent.
use crate::{Lent, Random};
use reference::sheet::{head_in, write, Form};
use reference::sizes::text_length;

/// Where the codes begin in a sheet.
const HEAD: usize = 2;

/// What a writer is lent.
#[derive(Clone)]
pub struct Contents {
    pub n: usize,
    pub sweeps: usize,
    pub codes: Vec<u16>,
    pub matrix: Vec<f64>,
    pub sheet: Vec<u8>,
}

impl Contents {
    /// The contents of a valid sheet: the order, the sweeps and the matrix of a run, and bytes of the sheet's length.
    pub fn of_run(lent: Lent, form: Form, random: &mut Random) -> Contents {
        let codes = random.codes(form, lent.n);
        Contents::with_codes(lent, codes, random)
    }

    /// Of run number k, damaged or not, with codes that are damaged in one case of four, and any room for the sheet.
    pub fn any(k: usize, form: Form, random: &mut Random) -> Contents {
        let lent = Lent::any(k, random);
        let mut codes = random.codes(form, lent.matrix.len().isqrt());
        match random.below(12) {
            0 => random.lend_wrongly(&mut codes),
            1 | 2 => random.damage_codes(&mut codes),
            _ => {}
        }
        let mut contents = Contents::with_codes(lent, codes, random);
        let room = match random.below(6) {
            0 => random.form().length(contents.codes.len()),
            _ => random.room(contents.sheet.len()),
        };
        contents.sheet = random.bytes(room);
        contents
    }

    pub(super) fn with_codes(lent: Lent, codes: Vec<u16>, random: &mut Random) -> Contents {
        Contents {
            n: lent.n,
            sweeps: lent.sweeps,
            sheet: random.bytes(Form::of_codes(&codes).length(codes.len())),
            codes,
            matrix: lent.matrix,
        }
    }

    /// The sheet of valid contents.
    pub(super) fn written(mut self) -> Vec<u8> {
        let (codes, matrix) = (&self.codes, &self.matrix);
        let written = write(self.n, self.sweeps, codes, matrix, &mut self.sheet);
        written.expect("the contents are valid");
        self.sheet
    }
}

/// The sheet of run number k, damaged in half of the cases, in one or two ways.
pub fn sheet(k: usize, form: Form, random: &mut Random) -> Vec<u8> {
    let lent = Lent::each(k, random);
    let n = lent.n;
    let mut sheet = Contents::of_run(lent, form, random).written();
    if random.one_in(2) {
        random.damage_sheet(form, n, &mut sheet);
    }
    sheet
}

/// The codes and the matrix that a reader is lent for a sheet. In one case of eight their lengths may be wrong.
pub fn read_lent(sheet: &[u8], random: &mut Random) -> (Vec<u16>, Vec<f64>) {
    let (_, n) = head_in(sheet);
    let mut codes = (0..n).map(|_| random.word() as u16).collect();
    let mut matrix = random.filled(n * n);
    match random.below(16) {
        0 => random.lend_wrongly(&mut codes),
        1 => random.lend_wrongly(&mut matrix),
        _ => {}
    }
    (codes, matrix)
}

/// A text to be lent for the listing of a sheet.
pub fn text(sheet: &[u8], random: &mut Random) -> Vec<u8> {
    let (_, n) = head_in(sheet);
    let length = match random.below(6) {
        0 => random.below(20),
        _ => random.room(text_length(n)),
    };
    random.bytes(length)
}

impl Random {
    pub fn form(&mut self) -> Form {
        self.among(&[Form::Short, Form::Long])
    }

    pub(super) fn bytes(&mut self, length: usize) -> Vec<u8> {
        (0..length).map(|_| self.word() as u8).collect()
    }

    /// Codes that are all different, as many as there can be of one byte.
    pub(super) fn codes(&mut self, form: Form, n: usize) -> Vec<u16> {
        let mut codes: Vec<u16> = (1..=255).collect();
        for k in 0..codes.len() {
            let other = k + self.below(codes.len() - k);
            codes.swap(k, other);
        }
        codes.truncate(n);
        if form == Form::Long && !codes.is_empty() {
            self.enlarge(&mut codes);
        }
        codes
    }

    /// Puts different codes above 255: all, by any lower byte or by the same upper byte, or some, or one.
    pub(super) fn enlarge(&mut self, codes: &mut [u16]) {
        let chosen = self.below(codes.len());
        let upper = 256 * (1 + self.below(255) as u16);
        let kind = self.below(4);
        for code in codes.iter_mut() {
            *code = match kind {
                0 => 256 * *code + self.below(256) as u16,
                1 => upper + *code,
                2 => 256 * self.below(256) as u16 + *code,
                _ => *code,
            };
        }
        if kind == 2 {
            codes[chosen] = upper + codes[chosen] % 256;
        }
        if kind == 3 {
            codes[chosen] = self.among(&[256, 257, upper, 65_535]);
        }
    }

    /// Makes a code zero, or like another.
    fn damage_codes(&mut self, codes: &mut [u16]) {
        if !codes.is_empty() {
            let (k, other) = (self.below(codes.len()), self.below(codes.len()));
            codes[k] = if self.one_in(2) { 0 } else { codes[other] };
        }
    }

    /// Damages a sheet of order n in one or two ways.
    pub(super) fn damage_sheet(&mut self, form: Form, n: usize, sheet: &mut Vec<u8>) {
        for _ in 0..=self.below(2) {
            self.damage_once(form, n, sheet);
        }
    }

    /// Damages a sheet of order n, or what an earlier damage has left of it.
    fn damage_once(&mut self, form: Form, n: usize, sheet: &mut Vec<u8>) {
        let codes = HEAD..HEAD + form.width() * n;
        match self.below(14) {
            0 => sheet.truncate(self.below(sheet.len() + 1)),
            1 => sheet.extend(0..=self.below(40) as u8),
            2 => sheet.truncate(self.below(3)),
            3 => self.damage_byte(0, sheet),
            4 => self.damage_byte(1, sheet),
            5 => *sheet = self.random_sheet(),
            6 | 7 => self.damage_stored_codes(form, sheet.get_mut(codes).unwrap_or_default()),
            8 => sheet.truncate(self.below(codes.end + 1)),
            9 => self.damage_form(n, sheet),
            10 | 11 if form == Form::Long => make_small(sheet.get_mut(codes).unwrap_or_default()),
            _ => self.damage_stored(codes.end, n, sheet),
        }
    }

    fn damage_byte(&mut self, k: usize, sheet: &mut [u8]) {
        if let Some(byte) = sheet.get_mut(k) {
            *byte = self.word() as u8;
        }
    }

    /// Makes a stored code zero, or like another.
    fn damage_stored_codes(&mut self, form: Form, stored: &mut [u8]) {
        let width = form.width();
        let n = stored.len() / width;
        if n > 0 {
            let (k, other) = (self.below(n), self.below(n));
            if self.one_in(2) {
                stored[width * k..][..width].fill(0);
            } else {
                stored.copy_within(width * other..width * (other + 1), width * k);
            }
        }
    }

    /// Gives a sheet the first byte of the other form, or the length, or both, or a wrong order of the long form.
    fn damage_form(&mut self, n: usize, sheet: &mut Vec<u8>) {
        let kind = self.below(4);
        if kind < 2 {
            sheet.resize(self.form().length(n), 0);
        }
        if let (1..=2, Some(first)) = (kind, sheet.first_mut()) {
            *first ^= 128;
        }
        if let (3, Some(first)) = (kind, sheet.first_mut()) {
            *first = self.among(&[128, 129, 161, 162, 163, 255]);
        }
    }

    /// Any bytes, with any order of either form and the length that it asks for or any other.
    fn random_sheet(&mut self) -> Vec<u8> {
        let (form, n) = (self.form(), self.below(40));
        let length = match self.below(3) {
            0 => self.below(300),
            _ => form.length(n),
        };
        let mut sheet = self.bytes(length);
        if let Some(first) = sheet.first_mut() {
            *first = form.first(n);
        }
        sheet
    }

    /// Makes up to three stored entries not finite, where they are there. The first begins at the byte given.
    fn damage_stored(&mut self, first: usize, n: usize, sheet: &mut [u8]) {
        for _ in 0..=self.below(3) {
            let at = first + 8 * self.below(n * (n + 1) / 2);
            if let Some(bytes) = sheet.get_mut(at..at + 8) {
                bytes.copy_from_slice(&self.not_finite().to_be_bytes());
            }
        }
    }
}

/// Makes stored codes of two bytes small and different, so that the long form is not needed.
fn make_small(stored: &mut [u8]) {
    for (k, code) in stored.chunks_exact_mut(2).enumerate() {
        code.copy_from_slice(&[0, 255 - k as u8]);
    }
}
