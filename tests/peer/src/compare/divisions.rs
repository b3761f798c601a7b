//! Quotients and remainders: of every two among the powers of two and their neighbours, and of numbers with any number of bits.

use super::{Source, Tally};
use crate::generate::Random;
use crate::library as lib;
use peer::division::divide;

const RANDOM: u64 = 200_000;

/// Each power of two and its neighbours.
fn edges() -> Vec<u64> {
    let mut all: Vec<u64> = (0..64).map(|k| 1u64 << k).flat_map(|power| [power - 1, power, power + 1]).collect();
    all.push(u64::MAX);
    all.sort_unstable();
    all.dedup();
    all
}

/// Any two numbers, or a number beside a multiple of the other.
fn numbers(random: &mut Random) -> (u64, u64) {
    let d_bits = random.below(65);
    let d = random.of_bits(d_bits);
    if random.one_in(4) {
        let times_bits = random.below(65 - d_bits);
        return ((random.of_bits(times_bits) * d).wrapping_add(random.below(3)).wrapping_sub(1), d);
    }
    let n_bits = random.below(65);
    (random.of_bits(n_bits), d)
}

pub fn run(source: &mut Source) -> u64 {
    let mut tally = Tally::new("jlt_divide", &[0]);
    let mut compare = |n, d| tally.compare(lib::divide(n, d), divide(n, d), || format!("{n} by {d}"));
    let edges = edges();
    edges.iter().for_each(|&n| edges.iter().for_each(|&d| compare(n, d)));
    for _ in 0..RANDOM {
        let (n, d) = numbers(&mut source.random);
        compare(n, d);
    }
    tally.finish()
}
