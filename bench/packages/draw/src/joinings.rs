//! Draws of what a joining of two sheets is lent.
use crate::{Contents, Lent, Random};
use reference::sheet::Form;
use reference::sizes::MOST_LINES;

/// The smallest order of a sheet.
const LEAST: usize = 2;

/// Two sheets, and bytes for the joint one.
#[derive(Clone)]
pub struct Joining {
    pub first: Vec<u8>,
    pub second: Vec<u8>,
    pub sheet: Vec<u8>,
}

impl Joining {
    /// Sheets of these runs and forms that can be joined, unless their joint order is too large, and as many bytes as the
    /// joint sheet has.
    pub fn of_runs(runs: [Lent; 2], forms: [Form; 2], random: &mut Random) -> Joining {
        let codes = random.codes_apart(forms, runs.each_ref().map(|run| run.n));
        Joining::with_codes(runs, codes, random)
    }

    /// Number k, in turn of every joint order. In one case of eight a code is in both, either sheet is damaged in one of
    /// eight, and the bytes may be too few.
    pub fn any(k: usize, forms: [Form; 2], random: &mut Random) -> Joining {
        let orders = random.orders(k);
        let runs = orders.map(|n| Lent::of_order(n, random));
        let mut codes = random.codes_apart(forms, orders);
        if random.one_in(8) {
            random.share_code(&mut codes);
        }
        let forms = codes.each_ref().map(|codes| Form::of_codes(codes));
        let mut drawn = Joining::with_codes(runs, codes, random);
        if random.one_in(8) {
            random.damage_sheet(forms[0], orders[0], &mut drawn.first);
        }
        if random.one_in(8) {
            random.damage_sheet(forms[1], orders[1], &mut drawn.second);
        }
        let room = match random.below(6) {
            0 => random.form().length(orders[0] + orders[1]),
            _ => random.room(drawn.sheet.len()),
        };
        drawn.sheet = random.bytes(room);
        drawn
    }

    fn with_codes(runs: [Lent; 2], codes: [Vec<u16>; 2], random: &mut Random) -> Joining {
        let all = codes.concat();
        let length = Form::of_codes(&all).length(all.len());
        let ([one, other], [codes, others]) = (runs, codes);
        Joining {
            first: Contents::with_codes(one, codes, random).written(),
            second: Contents::with_codes(other, others, random).written(),
            sheet: random.bytes(length),
        }
    }
}

impl Random {
    /// The orders of two sheets: their sum is number k in turn, near the limit or any.
    fn orders(&mut self, k: usize) -> [usize; 2] {
        let joint = match self.below(6) {
            0 => MOST_LINES - 1 + self.below(4),
            1 => 2 * LEAST + self.below(2 * MOST_LINES - 2 * LEAST + 1),
            _ => 2 * LEAST + k % (MOST_LINES - 2 * LEAST + 1),
        };
        let least = LEAST.max(joint.saturating_sub(MOST_LINES));
        let most = MOST_LINES.min(joint - LEAST);
        let first = least + self.below(most - least + 1);
        [first, joint - first]
    }

    /// Codes of two sheets of these forms and orders, none of them in both.
    fn codes_apart(&mut self, forms: [Form; 2], [n, m]: [usize; 2]) -> [Vec<u16>; 2] {
        loop {
            let mut codes = self.codes(Form::Short, n + m);
            let mut both = [codes.split_off(m), codes];
            for (form, codes) in forms.into_iter().zip(&mut both) {
                if form == Form::Long {
                    self.enlarge(codes);
                }
            }
            if !both[0].iter().any(|code| both[1].contains(code)) {
                return both;
            }
        }
    }

    /// Puts a code of the first sheet, or as many as there is room for, among those of the second, which may change the form.
    fn share_code(&mut self, [codes, others]: &mut [Vec<u16>; 2]) {
        let (k, other) = (self.below(codes.len()), self.below(others.len()));
        if self.one_in(4) {
            let count = codes.len().min(others.len());
            others[..count].copy_from_slice(&codes[..count]);
        } else {
            others[other] = codes[k];
        }
    }
}
