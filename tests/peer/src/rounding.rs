//! Rounding once from the exact fraction, halves away from zero, and the mark of what that did to the figure's size.

use std::cmp::Ordering;

pub const EXACT: u64 = 0;
pub const RAISED: u64 = 1;
pub const LOWERED: u64 = 2;

/// A figure and its mark; by default 0, exact.
#[derive(Clone, Copy, PartialEq, Eq, Debug, Default)]
pub struct Rounded<T = u64> {
    pub value: T,
    pub mark: u64,
}

/// n/d rounded; d is above 0 and n + d/2 fits.
#[inline]
pub fn rounded(n: u64, d: u64) -> Rounded {
    let value = (n + d / 2) / d;
    Rounded { value, mark: mark(value * d, n) }
}

/// The same of wider numbers; 2n + d fits, and so does the figure.
pub fn rounded_wide(n: u128, d: u128) -> Rounded {
    let value = (2 * n + d) / (2 * d);
    Rounded { value: value as u64, mark: mark(value * d, n) }
}

/// n / 2^bits rounded; bits are 1 to 100, n is below 2^100, and the figure fits.
#[inline]
pub fn rounded_shift(n: u128, bits: u32) -> Rounded {
    let value = (n + (1 << (bits - 1))) >> bits;
    Rounded { value: value as u64, mark: mark(value << bits, n) }
}

/// By the figure times the denominator, against the numerator.
#[inline]
fn mark<T: Ord>(product: T, n: T) -> u64 {
    match product.cmp(&n) {
        Ordering::Equal => EXACT,
        Ordering::Greater => RAISED,
        Ordering::Less => LOWERED,
    }
}

/// The same for a numerator of either sign, by its size.
pub fn rounded_signed(n: i64, d: u64) -> Rounded<i64> {
    let Rounded { value, mark } = rounded(n.unsigned_abs(), d);
    Rounded { value: if n < 0 { -(value as i64) } else { value as i64 }, mark }
}
