//! The parameters of a pair (document 01, "One rotation"; document 02 (v) and (vii)).
use crate::numbers::bits;
use crate::root::is_exact;

/// Tangent, cosine and sine of a turn.
#[derive(Clone, Copy)]
pub struct Turn {
    pub t: f64,
    pub c: f64,
    pub s: f64,
}

/// The turn of a pair, or none where it is still, and whether both roots were exact.
#[derive(Clone, Copy)]
pub struct Found {
    pub turn: Option<Turn>,
    pub exact: bool,
}

/// Of a pair without a root.
pub const STILL: Found = Found {
    turn: None,
    exact: true,
};

pub fn parameters(a: f64, d: f64, b: f64) -> Found {
    if b == 0.0 {
        return STILL;
    }
    let xi = (d / 2.0 - a / 2.0) / b;
    let sign = if xi < 0.0 { -1.0 } else { 1.0 };
    let t = sign / (xi.abs() + (1.0 + xi * xi).sqrt());
    Found {
        turn: of_tangent(t),
        exact: !t.is_nan() && has_exact_root(1.0 + xi * xi) && has_exact_root(1.0 + t * t),
    }
}

fn has_exact_root(x: f64) -> bool {
    is_exact(x, x.sqrt())
}

/// The turn with the tangent t, or none where it is still.
pub fn of_tangent(t: f64) -> Option<Turn> {
    if t == 0.0 {
        return None;
    }
    let c = 1.0 / (1.0 + t * t).sqrt();
    Some(Turn { t, c, s: t * c })
}

/// Tangent, cosine and sine as they are recorded.
pub fn recorded(turn: Option<Turn>) -> [f64; 3] {
    match turn {
        Some(Turn { t, c, s }) => [t, c, s].map(|x| f64::from_bits(bits(x))),
        None => [0.0, 1.0, 0.0],
    }
}

impl Turn {
    pub fn of(self, x: f64, y: f64) -> (f64, f64) {
        (self.c * x - self.s * y, self.s * x + self.c * y)
    }
}
