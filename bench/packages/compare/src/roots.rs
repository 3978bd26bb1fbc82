//! The square root, against the reference's, which is found by whole numbers, and the processor's, of which it is told by
//! its square whether it is exact.
use crate::expected::{is_told, FILLED_BITS, FILLED_BYTE, FILLED_PLACE};
use crate::tally::{number_of, Tally};
use draw::Random;
use reference::root::{self, Root};
use reference::Refusal;
use weimrukas::calls;

const ROOTS: usize = 2_400_000;

pub fn compare(random: &mut Random) -> bool {
    let mut tally = Tally::new("roots", &["exact", "rounded", "9"]);
    for k in 0..ROOTS {
        let x = match k % 6 {
            0 => f64::from_bits(random.word()),
            1 => random.pattern(),
            2 => random.near_square(),
            3 => random.square(),
            4 => random.beside_square(),
            _ => random.other_than_square(),
        };
        let expected = root::nearest(x);
        let same = is_root(x, &expected) && is_processors(x, &expected);
        tally.count(answer_of(&expected), same);
    }
    tally.report()
}

/// The number of a refusal, or whether the root is exact.
fn answer_of(expected: &Result<Root, Refusal>) -> &'static str {
    match expected {
        Ok(Root { exact: true, .. }) => "exact",
        Ok(_) => "rounded",
        Err(_) => number_of(expected),
    }
}

/// Whether the library tells what is expected. A refusal leaves the root and the flag.
fn is_root(x: f64, expected: &Result<Root, Refusal>) -> bool {
    let (mut root, mut flag) = (f64::from_bits(FILLED_BITS), FILLED_BYTE);
    let number = calls::root(x, &mut root, &mut flag);
    let told = match expected {
        Ok(Root { value, exact }) => (value.to_bits(), *exact as u8),
        Err(_) => (FILLED_BITS, FILLED_BYTE),
    };
    is_told(expected, number, FILLED_PLACE) && (root.to_bits(), flag) == told
}

fn is_processors(x: f64, expected: &Result<Root, Refusal>) -> bool {
    let root = x.sqrt();
    match expected {
        Ok(Root { value, exact }) => {
            value.to_bits() == root.to_bits() && *exact == (x == 0.0 || root::is_exact(x, root))
        }
        Err(_) => root.is_nan(),
    }
}
