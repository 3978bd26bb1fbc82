//! The bits of a value.

/// Stands for every value that is not a number.
const NAN: u64 = 0x7FF8_0000_0000_0000;

pub fn bits(x: f64) -> u64 {
    if x.is_nan() {
        NAN
    } else {
        x.to_bits()
    }
}
