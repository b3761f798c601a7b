//! Flash and fire points from bonds, formula (33), and from a class, formula (34). Coefficients are thousandths.

use crate::formula::{within_most, Atoms, MOST_ATOMS};
use crate::refusal::{refuse, refuse_if, Answer};
use crate::rounding::{rounded_signed, Rounded};

/// Counts of bond kinds 1 to 22.
pub type Bonds = [u64; 22];

/// Constant and factor of the boiling point: closed cup, open cup, fire point.
const METHODS: [(i64, i64); 3] = [(-73_140, 659), (-73_000, 409), (-47_780, 882)];

/// Tables 17, 19 and 20: the coefficients of a bond for each method.
const BONDS: [[Option<i64>; 3]; 22] = [
    [Some(-2_030), Some(3_630), Some(27)],      // 1 C–C
    [Some(-280), Some(6_480), Some(-2_069)],    // 2 C…C
    [Some(1_720), Some(-4_180), Some(-8_980)],  // 3 C=C
    [Some(1_105), Some(350), Some(-2_118)],     // 4 C–H
    [Some(2_470), Some(4_620), Some(-111)],     // 5 C–O
    [Some(11_660), Some(25_360), Some(-826)],   // 6 C=O
    [Some(14_150), Some(-7_030), Some(-5_876)], // 7 C–N
    [Some(12_130), None, None],                 // 8 C≡N
    [Some(2_090), Some(14_860), None],          // 9 C–S
    [Some(-11_910), None, None],                // 10 C=S
    [Some(3_330), None, None],                  // 11 C–F
    [Some(15_110), None, None],                 // 12 C–Cl
    [Some(19_400), None, None],                 // 13 C–Br
    [Some(-4_840), None, None],                 // 14 C–Si
    [Some(11_000), Some(-4_580), None],         // 15 Si–H
    [Some(10_070), None, None],                 // 16 Si–Cl
    [Some(5_830), Some(18_150), Some(-261)],    // 17 N–H
    [Some(23_900), Some(44_290), Some(8_216)],  // 18 O–H
    [Some(5_640), Some(10_750), None],          // 19 S–H
    [Some(3_270), Some(22_230), None],          // 20 P–O
    [Some(9_640), Some(-9_860), None],          // 21 P=O
    [None, Some(50_490), None],                 // 22 SiCl3 group
];

/// Table 18.
const CLASSES: [(i64, i64); 10] = [
    (-73_220, 693),
    (-41_690, 652),
    (-21_940, 533),
    (-43_570, 708),
    (-38_420, 623),
    (-67_830, 665),
    (-74_760, 813),
    (-49_560, 665),
    (-52_690, 643),
    (-55_700, 631),
];

/// Kinds less one of C-H, Si-H, N-H, O-H, S-H.
const HYDROGEN_BONDS: [usize; 5] = [3, 14, 16, 17, 18];

fn numbered<T>(table: &[T], number: u64) -> Answer<&T> {
    let index = usize::try_from(number.wrapping_sub(1)).unwrap_or(usize::MAX);
    table.get(index).map_or_else(|| refuse(16, 0), Ok)
}

fn boiling_admitted(boiling: i64) -> Answer<()> {
    refuse_if(!(-20_000..=60_000).contains(&boiling), 7, 0)
}

/// Thousandths times hundredths, rounded to hundredths.
fn hundredths(sum: i64) -> Rounded<i64> {
    rounded_signed(sum, 1_000)
}

pub fn by_bonds(method: u64, atoms: &Atoms, bonds: &Bonds, boiling: i64) -> Answer<Rounded<i64>> {
    let &(constant, slope) = numbered(&METHODS, method)?;
    within_most(atoms)?;
    if let Some(kind) = bonds.iter().position(|&count| count > MOST_ATOMS) {
        return refuse(2, 10 + kind as u64 + 1);
    }
    let hydrogen_bonds: u64 = HYDROGEN_BONDS.iter().map(|&kind| bonds[kind]).sum();
    refuse_if(atoms[1] != hydrogen_bonds, 5, 0)?;
    let mut sum = 100 * constant;
    for (kind, (&count, coefficients)) in bonds.iter().zip(&BONDS).enumerate() {
        match coefficients[method as usize - 1] {
            Some(coefficient) => sum += 100 * coefficient * count as i64,
            None => refuse_if(count > 0, 6, kind as u64 + 1)?,
        }
    }
    boiling_admitted(boiling)?;
    Ok(hundredths(sum + slope * boiling))
}

pub fn by_class(class: u64, boiling: i64) -> Answer<Rounded<i64>> {
    let &(constant, slope) = numbered(&CLASSES, class)?;
    boiling_admitted(boiling)?;
    Ok(hundredths(100 * constant + slope * boiling))
}
