//! Oxygen coefficient, stoichiometric fraction, flammability limits of a fuel, mass concentration.

use crate::blend::{Blend, USUAL_TEMPERATURE};
use crate::formula::{read, within_most, Atoms};
use crate::refusal::{refuse, refuse_if, Answer};
use crate::rounding::{rounded, Rounded};

/// 25 degrees: the temperature at which the limits' formulas were fitted.
pub const FIT_TEMPERATURE: i64 = 2_500;

/// Most atoms of each element that a question admits.
pub const OXYGEN: Atoms = [200, 200, 200, 200, 200, 200, 200, 200, 200, 0];
pub const LIMITS: Atoms = [200, 200, 200, 200, 0, 0, 0, 1, 0, 0];
pub const FIRE_POINT: Atoms = [200, 200, 200, 200, 0, 0, 0, 0, 0, 0];

/// Molar masses of C H O N and Cl, doubled.
const DOUBLE_MASS: [(usize, u64); 5] = [(0, 24), (1, 2), (2, 32), (3, 28), (7, 71)];

/// The figures of both limits.
#[derive(Clone, Copy, PartialEq, Eq, Debug, Default)]
pub struct Pair {
    pub lower: Rounded,
    pub upper: Rounded,
}

/// Formula (36) in quarters; the counts are at most 200.
pub fn quarters(atoms: &Atoms) -> i64 {
    let [c, h, o, _, s, p, f, cl, br, _] = atoms.map(|count| count as i64);
    4 * (c + s) + h - (f + cl + br) - 2 * o + 10 * p
}

/// The quarters of an admitted fuel; else refusal 2, 3 or 4.
pub fn admit(atoms: &Atoms, most: &Atoms) -> Answer<u64> {
    within_most(atoms)?;
    refuse_if(atoms[0] == 0, 3, 1)?;
    if let Some(element) = (0..10).find(|&element| atoms[element] > most[element]) {
        return refuse(3, element as u64 + 1);
    }
    let quarters = quarters(atoms);
    refuse_if(quarters < 2, 4, 0)?;
    Ok(quarters as u64)
}

pub fn oxygen_coefficient(atoms: &Atoms) -> Answer<u64> {
    admit(atoms, &OXYGEN)
}

pub fn oxygen_coefficient_of_text(text: &[u8]) -> Answer<u64> {
    oxygen_coefficient(&read(text)?)
}

/// 100/(4.84 beta + 1) %.
pub fn stoichiometric_fraction_of_text(text: &[u8]) -> Answer<Rounded> {
    let quarters = oxygen_coefficient_of_text(text)?;
    Ok(rounded(1_000_000, 121 * quarters + 100))
}

/// A fuel alone is a blend of it at 1 part.
pub fn fuel_limits_at(atoms: &Atoms, temperature: i64) -> Answer<Pair> {
    Blend::EMPTY.add(atoms, 1)?.limits_at(temperature)
}

pub fn fuel_limits_of_text_at(text: &[u8], temperature: i64) -> Answer<Pair> {
    fuel_limits_at(&read(text)?, temperature)
}

pub fn fuel_limits_of_text(text: &[u8]) -> Answer<Pair> {
    fuel_limits_of_text_at(text, USUAL_TEMPERATURE)
}

/// 10 M phi / Vm at both limits as answered, Vm = 22.414 (t + 273.15)/273.15, in 0.01 g/m3. The marks are of this rounding, whatever those of the limits.
pub fn mass_concentration_of_text(text: &[u8], temperature: i64) -> Answer<Pair> {
    let atoms = read(text)?;
    let limits = fuel_limits_at(&atoms, temperature)?;
    let double_mass: u64 = DOUBLE_MASS.iter().map(|&(element, mass)| mass * atoms[element]).sum();
    let volume = 2 * 22_414 * (temperature as u64 + 27_315);
    let at = |limit: Rounded| rounded(10 * double_mass * limit.value * 27_315_000, volume);
    Ok(Pair { lower: at(limits.lower), upper: at(limits.upper) })
}
