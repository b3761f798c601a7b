//! Analyser readings.

use super::{Expected, Source, Tally, ALL};
use crate::generate::Random;
use crate::library::*;
use peer::analyser::{self, Method, Reading};
use peer::rounding::{EXACT, LOWERED};

const OF_PARTS: Expected = &[("0", &[EXACT, LOWERED]), ("above 0", ALL)];

pub fn run(source: &mut Source) -> u64 {
    kind(source, Tally::marked("jlt_parts_of_percent", &[0, 14], OF_PARTS), 100.0, Reading::Percent)
        + kind(source, Tally::marked("jlt_parts_of_ppm", &[0, 14], OF_PARTS), 1e6, Reading::Ppm)
        + kind(source, Tally::new("jlt_parts_of_overload", &[14]), 1e6, |_| Reading::Overload)
}

fn kind(source: &mut Source, mut tally: Tally, most: f64, reading: fn(f64) -> Reading) -> u64 {
    for _ in 0..120_000 {
        let method = method(&mut source.random, most);
        let value = value(&mut source.random, most, method);
        let found = parts(method, reading(value));
        tally.compare(found, marked_of(analyser::parts(method, reading(value))), || {
            let Method { limit, ceiling } = method;
            format!(
                "limit {limit:e} ceiling {ceiling:e} reading {value:e} ({:#x} {:#x} {:#x})",
                limit.to_bits(),
                ceiling.to_bits(),
                value.to_bits()
            )
        });
    }
    tally.finish()
}

/// Often the whole range, often a part of it; at times out of order or no numbers.
fn method(random: &mut Random, most: f64) -> Method {
    let (mut limit, mut ceiling) = match random.below(4) {
        0 => (0.0, most),
        1 => (0.0, plain(random, most)),
        2 => (plain(random, most) / 1_000.0, most),
        _ => (plain(random, most), plain(random, most)),
    };
    if limit > ceiling && !random.one_in(8) {
        (limit, ceiling) = (ceiling, limit);
    }
    if random.one_in(12) {
        limit = special(random, most);
    }
    if random.one_in(12) {
        ceiling = special(random, most);
    }
    if random.one_in(12) {
        limit = near(random, ceiling);
    }
    Method { limit, ceiling }
}

/// A reading: plain, at whole parts or a tie, special, or next to the limit or the ceiling.
fn value(random: &mut Random, most: f64, method: Method) -> f64 {
    match random.below(8) {
        0 | 1 => plain(random, most),
        2 => {
            let whole = whole(random, most);
            near(random, whole)
        }
        3 => {
            let tie = tie(random, most);
            near(random, tie)
        }
        4 => special(random, most),
        5 => near(random, method.limit),
        6 => near(random, method.ceiling),
        _ => method.ceiling * (random.below(1_001) as f64 / 1_000.0),
    }
}

fn plain(random: &mut Random, most: f64) -> f64 {
    let share = (random.next() >> 11) as f64 / (1u64 << 53) as f64;
    match random.below(3) {
        0 => most * share,
        1 => (most * share * 100.0).round() / 100.0,
        _ => most * share / (1u64 << random.below(40)) as f64,
    }
}

/// Whole parts: exact ones (n ppm, 16ths of a percent), and the floats nearest to others.
fn whole(random: &mut Random, most: f64) -> f64 {
    if most > 100.0 {
        return random.below(1_000_001) as f64;
    }
    if random.one_in(2) {
        return random.below(1_601) as f64 / 16.0;
    }
    random.below(1_000_001) as f64 / 10_000.0
}

/// Halves of a part: exact ones (n + 1/2 ppm, an odd number of 32nds of a percent), and the floats nearest to others.
fn tie(random: &mut Random, most: f64) -> f64 {
    let half = random.below(1_000_000) as f64 + 0.5;
    if most > 100.0 {
        return half;
    }
    if random.one_in(2) {
        return (2 * random.below(1_600) + 1) as f64 / 32.0;
    }
    half / 10_000.0
}

/// The number, or one of its neighbours up to two bits away.
fn near(random: &mut Random, value: f64) -> f64 {
    f64::from_bits(value.to_bits().wrapping_add(random.pick(&[0, 0, 1, 2, u64::MAX, u64::MAX - 1])))
}

fn special(random: &mut Random, most: f64) -> f64 {
    let numbers = [
        0.0,
        most,
        5e-324,
        2.2250738585072014e-308,
        2.225073858507201e-308,
        1.0,
        0.5,
        1e-5,
        5e-5,
        1e300,
        f64::MAX,
        f64::INFINITY,
        f64::NAN,
    ];
    let bits = match random.below(8) {
        0 => random.next(),
        1 => 0x7ff0_0000_0000_0000 | random.next(),
        2 => random.next() >> 12,
        _ => random.pick(&numbers).to_bits().wrapping_add(random.pick(&[0, 0, 1, u64::MAX])),
    };
    f64::from_bits(bits ^ u64::from(random.one_in(3)) << 63)
}
