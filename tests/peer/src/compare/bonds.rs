//! Flash and fire points from bonds and from a class.

use super::{Expected, Source, Tally, ALL};
use crate::generate::{boiling, Random, NUMBER_EDGES};
use crate::library::*;
use peer::flash::{by_bonds, by_class, Bonds};
use peer::formula::Atoms;

pub fn run(source: &mut Source) -> u64 {
    bonds(source) + classes(source)
}

const OF_TEMPERATURES: Expected = &[("below 0", ALL), ("from 0", ALL)];

/// Kinds less one with a coefficient in every method, and the bonds of hydrogen.
const COMMON: [usize; 9] = [0, 1, 2, 3, 4, 5, 6, 16, 17];
const HYDROGEN: [usize; 5] = [3, 14, 16, 17, 18];

fn method(random: &mut Random) -> u64 {
    match random.below(12) {
        0 => random.pick(&[0, 4, 10, 11, u64::MAX, 1 << 32 | 1]),
        _ => random.below(3) + 1,
    }
}

/// Counts of a few kinds, mostly common ones; at times one at the edge.
fn bond_counts(random: &mut Random) -> Bonds {
    let mut bonds = [0; 22];
    for _ in 0..random.below(7) {
        let kind = if random.one_in(6) { random.index(22) } else { random.pick(&COMMON) };
        bonds[kind] = if random.one_in(8) { random.below(201) } else { random.below(12) };
    }
    if random.one_in(10) {
        bonds[random.index(22)] = random.pick(&NUMBER_EDGES);
    }
    bonds
}

/// Any elements, with as many hydrogen atoms as bonds, mostly.
fn atom_counts(random: &mut Random, bonds: &Bonds) -> Atoms {
    let mut atoms: Atoms = std::array::from_fn(|_| if random.one_in(2) { 0 } else { random.below(30) });
    atoms[1] = HYDROGEN.iter().fold(0, |sum: u64, &kind| sum.saturating_add(bonds[kind]));
    if random.one_in(12) {
        atoms[1] = atoms[1].wrapping_add(random.pick(&[1, u64::MAX]));
    }
    if random.one_in(12) {
        atoms[random.index(10)] = random.pick(&NUMBER_EDGES);
    }
    atoms
}

/// Every boiling point, with every half and every whole hundredth among the sums.
const BOILING: std::ops::RangeInclusive<i64> = -20_001..=60_001;

/// Bonds that every method takes, and their atoms.
fn common_bonds(random: &mut Random) -> (Atoms, Bonds) {
    let (mut atoms, mut bonds) = ([0; 10], [0; 22]);
    COMMON.iter().for_each(|&kind| bonds[kind] = random.below(8));
    atoms[1] = HYDROGEN.iter().map(|&kind| bonds[kind]).sum();
    (atoms, bonds)
}

fn bonds(source: &mut Source) -> u64 {
    let mut tally = Tally::marked("jlt_flash_by_bonds", &[0, 2, 5, 6, 7, 16], OF_TEMPERATURES);
    let random = &mut source.random;
    let mut one = |method, atoms: &Atoms, bonds: &Bonds, boiling| {
        let peer = marked_of(by_bonds(method, atoms, bonds, boiling));
        tally.compare(flash_by_bonds(method, atoms, bonds, boiling), peer, || {
            format!("method {method}, atoms {atoms:?}, bonds {bonds:?}, boiling {boiling}")
        });
    };
    for _ in 0..250_000 {
        let (method, bonds, boiling) = (method(random), bond_counts(random), boiling(random));
        one(method, &atom_counts(random, &bonds), &bonds, boiling);
    }
    for method in [1, 2, 3, 1, 2, 3] {
        let (atoms, bonds) = common_bonds(random);
        BOILING.for_each(|boiling| one(method, &atoms, &bonds, boiling));
    }
    tally.finish()
}

fn classes(source: &mut Source) -> u64 {
    let mut tally = Tally::marked("jlt_flash_by_class", &[0, 7, 16], OF_TEMPERATURES);
    let mut one = |class, boiling| {
        let peer = marked_of(by_class(class, boiling));
        tally.compare(flash_by_class(class, boiling), peer, || format!("class {class}, boiling {boiling}"));
    };
    for class in 0..=11 {
        BOILING.for_each(|boiling| one(class, boiling));
    }
    for _ in 0..60_000 {
        let class = if source.random.one_in(10) { source.random.pick(&NUMBER_EDGES) } else { source.random.below(12) };
        one(class, boiling(&mut source.random));
    }
    tally.finish()
}
