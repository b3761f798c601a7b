//! Analyser readings to whole parts per million, from the bits of the float.

use crate::refusal::{refuse, refuse_if, Answer};
use crate::rounding::{rounded_shift, Rounded};

/// A detection limit and a ceiling in the reading's unit.
#[derive(Clone, Copy, Debug)]
pub struct Method {
    pub limit: f64,
    pub ceiling: f64,
}

#[derive(Clone, Copy, Debug)]
pub enum Reading {
    Percent(f64),
    Ppm(f64),
    Overload,
}

pub fn parts(method: Method, reading: Reading) -> Answer<Rounded> {
    match reading {
        Reading::Percent(value) => convert(method, 100.0, value, 10_000),
        Reading::Ppm(value) => convert(method, 1_000_000.0, value, 1),
        Reading::Overload => {
            check(method, 1_000_000.0)?;
            refuse(14, 1)
        }
    }
}

fn check(method: Method, most: f64) -> Answer<()> {
    let good = 0.0 <= method.limit && method.limit <= method.ceiling && method.ceiling <= most;
    refuse_if(!good, 14, 0)
}

fn convert(method: Method, most: f64, value: f64, parts_each: u128) -> Answer<Rounded> {
    check(method, most)?;
    let good = 0.0 <= value && value <= method.ceiling;
    refuse_if(!good, 14, 1)?;
    if value < method.limit {
        return Ok(Rounded::default());
    }
    Ok(rounded_product(value, parts_each))
}

/// value times factor, rounded; value is 0 to 1,000,000, factor at most 10,000.
fn rounded_product(value: f64, factor: u128) -> Rounded {
    let bits = value.to_bits();
    let exponent = (bits >> 52 & 0x7ff) as u32;
    let fraction = u128::from(bits & ((1 << 52) - 1));
    // value = mantissa / 2^shift, and shift is at least 33 for a value below 2^20
    let (mantissa, shift) = if exponent == 0 { (fraction, 1_074) } else { (fraction | 1 << 52, 1_075 - exponent) };
    // the product is below 2^67 / 2^shift: from a shift of 100 on it is 0, or lowered to 0, as with 100
    rounded_shift(mantissa * factor, shift.min(100))
}
