//! A second oracle for the vapour curve: every hundredth of a degree in turn, by the inequalities as printed.

use crate::formula::Atoms;
use crate::limits::quarters;

/// The first hundredth on a good curve at which the condition holds; pressures between points are rounded down.
fn first(temperatures: &[i64], pressures: &[u64], holds: impl Fn(i128, i128) -> bool) -> Option<i64> {
    (temperatures[0]..=temperatures[temperatures.len() - 1]).find(|&t| {
        let after = temperatures.iter().position(|&point| point >= t).unwrap_or(0);
        holds(i128::from(t), pressure(temperatures, pressures, after, t))
    })
}

fn pressure(temperatures: &[i64], pressures: &[u64], after: usize, t: i64) -> i128 {
    if temperatures[after] == t {
        return i128::from(pressures[after]);
    }
    let (t0, t1) = (i128::from(temperatures[after - 1]), i128::from(temperatures[after]));
    let (p0, p1) = (i128::from(pressures[after - 1]), i128::from(pressures[after]));
    (p0 * (t1 - t0) + (p1 - p0) * (i128::from(t) - t0)) / (t1 - t0)
}

/// pressure >= phi/100 of 101,300 Pa, phi in hundredths of a percent.
pub fn lower_temperature_limit(phi: u64, temperatures: &[i64], pressures: &[u64]) -> Option<i64> {
    first(temperatures, pressures, |_, p| 100 * 100 * p >= i128::from(phi) * 101_300)
}

/// (t + 273) p D0 beta >= level: t in hundredths, p in Pa for kPa, D0 in 0.0001 cm2/s, beta in quarters.
pub fn flash(level: u64, fuel: &Atoms, diffusion: u64, temperatures: &[i64], pressures: &[u64]) -> Option<i64> {
    let (beta, diffusion) = (i128::from(quarters(fuel)), i128::from(diffusion));
    first(temperatures, pressures, |t, p| (t + 27_300) * p * diffusion * beta >= i128::from(level) * 100 * 1_000 * 10_000 * 4)
}
