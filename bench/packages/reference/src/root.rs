//! The square root by whole numbers (document 01, "Square root"; document 02 (vii)).
use crate::Refusal;

/// The first of the 53 digits of a value, which its pattern leaves out.
const HIDDEN: u64 = 1 << 52;

/// The f64 nearest to the exact root, and whether it is exact.
#[derive(Clone, Copy)]
pub struct Root {
    pub value: f64,
    pub exact: bool,
}

pub fn nearest(x: f64) -> Result<Root, Refusal> {
    if x.is_nan() || x < 0.0 {
        return Err(Refusal::of(9));
    }
    if x == 0.0 || x.is_infinite() {
        return Ok(Root {
            value: x,
            exact: true,
        });
    }
    let (digits, exponent) = taken_apart(x);
    let odd = exponent.rem_euclid(2);
    let square = (digits as u128) << (52 + odd);
    let (root, exact) = nearest_whole(square);
    let value = put_together(root, (exponent - odd - 52) / 2);
    Ok(Root { value, exact })
}

/// Whether the root of a value above zero, which is found already, is exact: the square of its 53 digits is then the
/// value's digits and zeros.
pub fn is_exact(x: f64, root: f64) -> bool {
    if x.is_infinite() {
        return true;
    }
    let ((digits, exponent), (root, half)) = (taken_apart(x), taken_apart(root));
    (digits as u128) << (exponent - 2 * half) == (root as u128).pow(2)
}

/// A finite value above zero as 53 digits and the exponent of the power of two that they are multiplied by.
fn taken_apart(x: f64) -> (u64, i32) {
    let (exponent, fraction) = ((x.to_bits() >> 52) as i32, x.to_bits() % HIDDEN);
    if exponent > 0 {
        return (HIDDEN + fraction, exponent - 1075);
    }
    let missing = HIDDEN.leading_zeros().abs_diff(fraction.leading_zeros());
    (fraction << missing, -1074 - missing as i32)
}

/// The inverse, for an exponent of a normal value.
fn put_together(digits: u64, exponent: i32) -> f64 {
    f64::from_bits((((exponent + 1075) as u64) << 52) + (digits - HIDDEN))
}

/// The whole number nearest to the root of a square of 105 or 106 digits: r or r + 1, as the square of r + 1/2 is above
/// or below. It is never equal. And whether it is the root itself.
fn nearest_whole(square: u128) -> (u64, bool) {
    let r = square.isqrt();
    let above = (2 * r + 1).pow(2) < 4 * square;
    (r as u64 + above as u64, r * r == square)
}
