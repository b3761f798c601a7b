//! Compares library and peer from a fixed seed. The first difference is printed in full and ends the run.

mod blends;
mod bonds;
mod divisions;
mod figures;
mod readings;
mod sheets;
mod texts;
mod vapour;

use crate::fence::Fence;
use crate::generate::Random;
use crate::library::Shown;
use peer::rounding::{EXACT, LOWERED, RAISED};
use std::collections::{BTreeMap, BTreeSet};
use std::process::exit;

const SEED: u64 = 0x4a61_6c6f_6f73_6577;
const LEAST_INPUTS: u64 = 1_000_000;

/// What a comparison draws on: numbers, and lent memory.
pub struct Source {
    random: Random,
    bytes: Fence,
    temperatures: Fence,
    pressures: Fence,
}

pub fn run() {
    println!("seed {SEED:#x}");
    figures::check();
    let mut source =
        Source { random: Random(SEED), bytes: Fence::new(1 << 18), temperatures: Fence::new(8 * 5_000), pressures: Fence::new(8 * 5_000) };
    let parts: &[fn(&mut Source) -> u64] = &[texts::run, blends::run, bonds::run, vapour::run, readings::run, sheets::run, divisions::run];
    let compared: u64 = parts.iter().map(|part| part(&mut source)).sum();
    if compared < LEAST_INPUTS {
        fail(&format!("{compared} inputs compared, fewer than {LEAST_INPUTS}"));
    }
    println!("{compared} inputs compared, no difference");
}

pub fn fail(message: &str) -> ! {
    println!("FAILED: {message}");
    exit(1)
}

/// The marks that the figures of an answer can have, each figure by its name.
type Expected = &'static [(&'static str, &'static [u64])];

const ALL: &[u64] = &[EXACT, RAISED, LOWERED];
const OF_LIMITS: Expected = &[("lower", ALL), ("upper", ALL)];

/// What a function answered so far: for each refusal number, 0 if answered, how often and with which places; and how often each mark of each figure.
struct Tally {
    function: &'static str,
    numbers: &'static [u64],
    can_have: Expected,
    given: BTreeMap<u64, (u64, BTreeSet<u64>)>,
    marks: BTreeMap<(&'static str, u64), u64>,
    inputs: u64,
}

impl Tally {
    /// `numbers`: those that the function can give, 0 if it can answer.
    fn new(function: &'static str, numbers: &'static [u64]) -> Tally {
        Tally::marked(function, numbers, &[])
    }

    /// The same for a function that rounds.
    fn marked(function: &'static str, numbers: &'static [u64], can_have: Expected) -> Tally {
        Tally { function, numbers, can_have, given: BTreeMap::new(), marks: BTreeMap::new(), inputs: 0 }
    }

    fn compare<A: Shown>(&mut self, library: A, peer: A, input: impl FnOnce() -> String) {
        if library != peer {
            fail(&format!("{}\n  input   {}\n  library {library:?}\n  peer    {peer:?}", self.function, input()));
        }
        self.count(&library);
    }

    fn count<A: Shown>(&mut self, answer: &A) {
        let refusal = answer.refusal();
        let (times, places) = self.given.entry(refusal.number).or_default();
        *times += 1;
        places.insert(refusal.place);
        self.inputs += 1;
        if refusal.number == 0 {
            answer.marks().into_iter().flatten().for_each(|mark| *self.marks.entry(mark).or_default() += 1);
        }
    }

    /// Compares lent memory after a call with what it must hold.
    fn compare_bytes(&self, library: &[u8], peer: &[u8], input: impl FnOnce() -> String) {
        if library != peer {
            fail(&format!(
                "{}: bytes of a lent buffer\n  input   {}\n  library {}\n  peer    {}",
                self.function,
                input(),
                library.escape_ascii(),
                peer.escape_ascii()
            ));
        }
    }

    /// Prints the lines of the function; fails where a number or a mark that it can give never came, or a mark came that it cannot give.
    fn finish(self) -> u64 {
        let answered = self.given.get(&0).map_or(0, |(times, _)| *times);
        print!("{:<29}{:>8} inputs, answered {answered}", self.function, self.inputs);
        for (number, (times, places)) in self.given.iter().filter(|(&number, _)| number > 0) {
            print!(", {number}: {times}");
            if places.len() > 1 {
                print!(" ({} places)", places.len());
            }
        }
        println!();
        for (name, _) in self.can_have {
            let [exact, raised, lowered] = [EXACT, RAISED, LOWERED].map(|mark| self.marks.get(&(*name, mark)).unwrap_or(&0));
            println!("    {name}: exact {exact}, raised {raised}, lowered {lowered}");
        }
        self.check_numbers();
        self.check_marks();
        self.inputs
    }

    fn check_numbers(&self) {
        if let Some(number) = self.numbers.iter().find(|number| !self.given.contains_key(number)) {
            fail(&format!("{}: no input had refusal {number} (0: an answer)", self.function));
        }
    }

    fn check_marks(&self) {
        let can_come: BTreeSet<_> = self.can_have.iter().flat_map(|&(name, marks)| marks.iter().map(move |&mark| (name, mark))).collect();
        let came: BTreeSet<_> = self.marks.keys().copied().collect();
        if let Some((name, mark)) = can_come.symmetric_difference(&came).next() {
            let what = if came.contains(&(*name, *mark)) { "came and cannot" } else { "never came" };
            fail(&format!("{}: mark {mark} of {name} {what}", self.function));
        }
    }
}
