//! The vapour curve: the lower temperature limit, and flash and fire points by formula (35).

use crate::formula::Atoms;
use crate::limits::{admit, fuel_limits_at, FIRE_POINT, FIT_TEMPERATURE, OXYGEN};
use crate::refusal::{refuse, refuse_if, Answer};

/// The right sides of formula (35): closed cup, open cup, fire point.
const LEVELS: [u64; 3] = [280, 427, 453];
/// Hundredths of a degree, Pa in a kPa, 0.0001 cm2/s in a cm2/s, quarters.
const UNITS: u64 = 100 * 1_000 * 10_000 * 4;

/// pressure >= phi/100 of 101,300 Pa, phi the lower limit as answered at 25 degrees.
pub fn lower_temperature_limit(fuel: &Atoms, temperatures: &[i64], pressures: &[u64]) -> Answer<i64> {
    let lower = fuel_limits_at(fuel, FIT_TEMPERATURE)?.lower.value;
    smallest(temperatures, pressures, |_, pressure| pressure * 10_000 >= lower * 101_300)
}

/// (t + 273) p D0 beta >= level, p in kPa, D0 in cm2/s.
pub fn flash(method: u64, fuel: &Atoms, diffusion: u64, temperatures: &[i64], pressures: &[u64]) -> Answer<i64> {
    refuse_if(!(1..=3).contains(&method), 16, 0)?;
    let quarters = admit(fuel, if method == 3 { &FIRE_POINT } else { &OXYGEN })?;
    refuse_if(!(1..=20_000).contains(&diffusion), 18, 0)?;
    let factor = diffusion * quarters;
    let level = LEVELS[method as usize - 1] * UNITS;
    smallest(temperatures, pressures, |t, pressure| (t + 27_300) as u64 * pressure * factor >= level)
}

/// The smallest hundredth of a degree at which a condition that keeps holding along the curve holds.
fn smallest(temperatures: &[i64], pressures: &[u64], holds: impl Fn(i64, u64) -> bool) -> Answer<i64> {
    check(temperatures, pressures)?;
    let last = temperatures.len() - 1;
    let at_point = |point: usize| holds(temperatures[point], pressures[point]);
    refuse_if(at_point(0), 12, 0)?;
    refuse_if(!at_point(last), 13, 0)?;
    let end = first_true(1, last as i64, |point| at_point(point as usize)) as usize;
    let (t0, t1) = (temperatures[end - 1], temperatures[end]);
    let (p0, p1) = (pressures[end - 1], pressures[end]);
    let pressure = |t: i64| p0 + (p1 - p0) * (t - t0) as u64 / (t1 - t0) as u64;
    Ok(first_true(t0 + 1, t1, |t| holds(t, pressure(t))))
}

/// The first number from `low` at which a test that keeps holding holds; it holds at `high`.
fn first_true(mut low: i64, mut high: i64, test: impl Fn(i64) -> bool) -> i64 {
    while low < high {
        let middle = low + (high - low) / 2;
        if test(middle) {
            high = middle;
        } else {
            low = middle + 1;
        }
    }
    low
}

/// Refusal 11 at the first point that is out of range or not above the one before.
fn check(temperatures: &[i64], pressures: &[u64]) -> Answer<()> {
    let points = temperatures.len();
    refuse_if(points != pressures.len() || !(2..=4_096).contains(&points), 11, 0)?;
    let (mut t_before, mut p_before) = (i64::MIN, 0);
    for (point, (&t, &p)) in temperatures.iter().zip(pressures).enumerate() {
        let in_range = (-20_000..=60_000).contains(&t) && (1..=250_000).contains(&p);
        if !in_range || t <= t_before || p <= p_before {
            return refuse(11, point as u64);
        }
        (t_before, p_before) = (t, p);
    }
    Ok(())
}
