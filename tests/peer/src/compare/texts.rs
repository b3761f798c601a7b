//! Formula reading and writing, and the questions about one fuel.

use super::{fail, Expected, Source, Tally, ALL, OF_LIMITS};
use crate::generate::{counts, exact_limits, exact_mass, fuel_of_quarters, fuel_text, spelled, temperature, text, Random};
use crate::library::*;
use peer::formula::{self, Atoms};
use peer::grammar::{texts, Formulas};
use peer::rounding::{LOWERED, RAISED};
use peer::{limits, refusal::refuse};

const OF_FRACTIONS: Expected = &[("above 0", ALL)];
/// At 20.00 no limit of a fuel is exact: 313 does not divide 25,000 * 125,700, nor does 7 divide 50,000 * 80,700.
const OF_USUAL_LIMITS: Expected = &[("lower", &[RAISED, LOWERED]), ("upper", &[RAISED, LOWERED])];

pub fn run(source: &mut Source) -> u64 {
    read(source)
        + write(source)
        + figure(source, "jlw_oxygen_coefficient", &[], oxygen_coefficient, |text| figure_of(limits::oxygen_coefficient_of_text(text)))
        + figure(source, "jlw_stoichiometric_fraction", OF_FRACTIONS, stoichiometric_fraction, |text| {
            marked_of(limits::stoichiometric_fraction_of_text(text))
        })
        + figure(source, "jlw_fuel_limits", OF_USUAL_LIMITS, fuel_limits, |text| limits_of(limits::fuel_limits_of_text(text)))
        + figure_at(source, "jlw_fuel_limits_at", exact_limits, fuel_limits_at, limits::fuel_limits_of_text_at)
        + figure_at(source, "jlw_mass_concentration", exact_mass, mass_concentration, limits::mass_concentration_of_text)
        + by_counts(source)
}

fn read(source: &mut Source) -> u64 {
    let mut tally = Tally::new("jlw_read_formula", &[0, 1, 2]);
    let mut one = |source: &mut Source, text: &[u8]| {
        let lent = source.bytes.hold(text);
        tally.compare(read_formula(lent), formula_of(formula::read(text)), || text.escape_ascii().to_string());
        tally.compare_bytes(lent, text, || text.escape_ascii().to_string());
    };
    for first in 0..=255 {
        one(source, &[first]);
        (0..=255).for_each(|second| one(source, &[first, second]));
        (0..=255).for_each(|second| one(source, &[b'C', first, second]));
    }
    for _ in 0..250_000 {
        let text = text(&mut source.random);
        one(source, &text);
    }
    tally.finish() + by_grammar(source)
}

/// The reader against all formulas of the grammar over a few bytes.
fn by_grammar(source: &mut Source) -> u64 {
    let mut tally = Tally::new("jlw_read_formula, grammar", &[0, 1]);
    let formulas = Formulas::new();
    for text in texts() {
        let library = read_formula(source.bytes.hold(&text));
        let wanted = formulas.place(&text).map_or(ANSWERED, |place| refuse::<()>(1, place).unwrap_err());
        if library.refusal != wanted {
            fail(&format!("jlw_read_formula\n  input   {}\n  library {library:?}\n  grammar {wanted:?}", text.escape_ascii()));
        }
        tally.count(&library);
    }
    tally.finish()
}

fn write(source: &mut Source) -> u64 {
    let mut tally = Tally::new("jlw_write_formula", &[0, 1, 2, 17]);
    for element in 0..10 {
        for count in 0..=202 {
            let mut atoms = [0; 10];
            atoms[element] = count;
            write_into_rooms(source, &mut tally, &atoms);
        }
    }
    for _ in 0..12_000 {
        let atoms = if source.random.one_in(4) { crowded(source) } else { counts(&mut source.random) };
        write_into_rooms(source, &mut tally, &atoms);
    }
    tally.finish()
}

/// Counts of all elements up to 200: the longest texts.
fn crowded(source: &mut Source) -> Atoms {
    std::array::from_fn(|_| if source.random.one_in(6) { 0 } else { source.random.below(201) })
}

/// Rooms of every size around the text's length, none, and a large one.
fn write_into_rooms(source: &mut Source, tally: &mut Tally, atoms: &Atoms) {
    let length = formula::write(atoms, &mut [0; 64]).unwrap_or(5);
    let rooms = (length.saturating_sub(3)..=length + 3).chain([0, 1, 64]);
    for room in rooms {
        let fill = source.random.next() as u8;
        let mut expected = vec![fill; room];
        let lent = source.bytes.hold(&expected);
        let library = write_formula(atoms, lent);
        let peer = figure_of(formula::write(atoms, &mut expected).map(|length| length as u64));
        tally.compare(library, peer, || format!("{atoms:?} into {room} bytes"));
        tally.compare_bytes(lent, &expected, || format!("{atoms:?} into {room} bytes of {fill}"));
        if library.refusal == ANSWERED && read_formula(&lent[..library.value as usize]) != formula_of(Ok(*atoms)) {
            fail(&format!("{atoms:?} are written as {}, which reads otherwise", lent.escape_ascii()));
        }
    }
}

/// In the first rounds a fuel of each number of quarters.
fn any_fuel(random: &mut Random, round: u64) -> Vec<u8> {
    match round {
        2..=1_000 => spelled(random, &fuel_of_quarters(round)),
        _ => fuel_text(random),
    }
}

fn figure<A: Shown>(source: &mut Source, name: &'static str, marks: Expected, library: fn(&[u8]) -> A, peer: fn(&[u8]) -> A) -> u64 {
    let mut tally = Tally::marked(name, &[0, 1, 2, 3, 4], marks);
    for round in 0..80_000 {
        let text = if round > 1_000 && round % 5 == 0 { text(&mut source.random) } else { any_fuel(&mut source.random, round) };
        let lent = source.bytes.hold(&text);
        tally.compare(library(lent), peer(&text), || text.escape_ascii().to_string());
    }
    tally.finish()
}

type ExactAt = fn(&mut Random) -> (Atoms, i64);
type LibraryAt = fn(&[u8], i64) -> Limits;
type PeerAt = fn(&[u8], i64) -> peer::refusal::Answer<limits::Pair>;

/// A fuel and a temperature, after the first rounds also such as give exact figures.
fn any_fuel_at(random: &mut Random, round: u64, exact: ExactAt) -> (Vec<u8>, i64) {
    if round > 1_000 && round % 16 == 1 {
        let (fuel, t) = exact(random);
        return (spelled(random, &fuel), t);
    }
    (any_fuel(random, round), temperature(random))
}

fn figure_at(source: &mut Source, name: &'static str, exact: ExactAt, library: LibraryAt, peer: PeerAt) -> u64 {
    let mut tally = Tally::marked(name, &[0, 1, 2, 3, 4, 10], OF_LIMITS);
    for round in 0..100_000 {
        let (text, t) = any_fuel_at(&mut source.random, round, exact);
        let lent = source.bytes.hold(&text);
        tally.compare(library(lent, t), limits_of(peer(&text, t)), || format!("{} at {t}", text.escape_ascii()));
    }
    tally.finish()
}

/// The same questions with a fuel given by counts.
fn by_counts(source: &mut Source) -> u64 {
    let mut oxygen = Tally::new("jlt_oxygen_coefficient", &[0, 2, 3, 4]);
    let mut limits_at = Tally::marked("jlt_fuel_limits_at", &[0, 2, 3, 4, 10], OF_LIMITS);
    for round in 0..80_000 {
        let random = &mut source.random;
        let (atoms, t) = if round % 16 == 0 { exact_limits(random) } else { (counts(random), temperature(random)) };
        oxygen.compare(oxygen_coefficient_by_counts(&atoms), figure_of(limits::oxygen_coefficient(&atoms)), || format!("{atoms:?}"));
        limits_at.compare(fuel_limits_by_counts(&atoms, t), limits_of(limits::fuel_limits_at(&atoms, t)), || format!("{atoms:?} at {t}"));
    }
    oxygen.finish() + limits_at.finish()
}
