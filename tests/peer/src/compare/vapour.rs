//! The two questions of a vapour curve.

use super::{fail, Source, Tally};
use crate::curves::{good, spoil, Curve};
use crate::generate::{counts, fuel_of_quarters, Random};
use crate::library::*;
use peer::curve;
use peer::formula::Atoms;
use peer::limits::{admit, fuel_limits_at as peer_limits_at, FIT_TEMPERATURE, OXYGEN};
use peer::scan;

pub fn run(source: &mut Source) -> u64 {
    lower_limits(source) + flashes(source)
}

const CASES: u64 = 60_000;

/// A curve on which `least` is the smallest pressure that meets the condition; one in six is spoilt.
fn curve_for(random: &mut Random, least: impl Fn(i64) -> u64) -> Curve {
    let mut curve = good(random, least);
    if random.one_in(6) {
        spoil(random, &mut curve);
    }
    curve
}

/// The widest curve, in hundredths, that is also searched one by one.
const SCANNED: i64 = 3_000;

/// Holds an answer about a narrow curve to a search of every hundredth: the first that meets the condition, 12 at the first point, 13 for none.
/// Answers whether there was one to hold.
fn scanned(library: Temperature, curve: &Curve, search: impl Fn() -> Option<i64>, input: impl FnOnce() -> String) -> bool {
    let Curve { temperatures, .. } = curve;
    let answered = matches!(library.refusal.number, 0 | 12 | 13);
    if !answered || temperatures[temperatures.len() - 1] - temperatures[0] > SCANNED || temperatures.len() > 50 {
        return false;
    }
    let found = search();
    let good = match library.refusal.number {
        0 => found == Some(library.value) && library.value > temperatures[0],
        12 => found == Some(temperatures[0]),
        _ => found.is_none(),
    };
    if !good {
        fail(&format!("{}\n  library {library:?}\n  one by one {found:?}", input()));
    }
    true
}

fn lower_limits(source: &mut Source) -> u64 {
    let mut tally = Tally::new("jlt_lower_temperature_limit", &[0, 2, 3, 4, 11, 12, 13]);
    let mut scans = 0;
    for _ in 0..CASES {
        let fuel = counts(&mut source.random);
        let lower = peer_limits_at(&fuel, FIT_TEMPERATURE).map_or(300, |pair| pair.lower.value);
        let curve = curve_for(&mut source.random, |_| (lower * 1_013).div_ceil(100));
        let Curve { temperatures, pressures } = &curve;
        let (t, p) = (source.temperatures.hold(temperatures), source.pressures.hold(pressures));
        let peer = temperature_of(curve::lower_temperature_limit(&fuel, temperatures, pressures));
        let library = lower_temperature_limit(&fuel, t, p);
        let input = || format!("{fuel:?} on {temperatures:?} {pressures:?}");
        tally.compare(library, peer, input);
        assert!(t == &temperatures[..] && p == &pressures[..], "a lent curve changed");
        scans += u64::from(scanned(library, &curve, || scan::lower_temperature_limit(lower, temperatures, pressures), input));
    }
    let inputs = tally.finish();
    println!("    {scans} of them also searched one by one");
    inputs
}

fn diffusion(random: &mut Random) -> u64 {
    match random.below(6) {
        0 => random.pick(&[0, 1, 20_000, 20_001, u64::MAX]),
        1 => random.below(20_000) + 1,
        _ => random.below(1_500) + 200,
    }
}

fn level(method: u64) -> u64 {
    [280, 427, 453][method.clamp(1, 3) as usize - 1]
}

/// The smallest pressure that meets formula (35) at a temperature, for a fuel as given or as if it were admitted.
fn least_pressure(method: u64, fuel: &Atoms, diffusion: u64) -> impl Fn(i64) -> u64 {
    let factor = admit(fuel, &OXYGEN).unwrap_or(20) * diffusion.clamp(1, 20_000);
    move |t| u64::div_ceil(level(method) * 4_000_000_000, (t + 27_300) as u64 * factor)
}

/// A question of formula (35).
struct Question {
    method: u64,
    fuel: Atoms,
    diffusion: u64,
    curve: Curve,
}

fn any_question(random: &mut Random) -> Question {
    let fuel = counts(random);
    let method = if random.one_in(16) { random.pick(&[0, 4, u64::MAX]) } else { random.below(3) + 1 };
    let diffusion = diffusion(random);
    let curve = curve_for(random, least_pressure(method, &fuel, diffusion));
    Question { method, fuel, diffusion, curve }
}

/// A question whose two sides are equal at a point of the curve, the first, the second or the last of three.
fn equal_question(random: &mut Random) -> Question {
    let method = random.below(3) + 1;
    loop {
        let product = level(method) * 4_000_000_000;
        let t = divisor(random, product, 7_300, 87_300);
        let quarters = divisor(random, product / t, 2, 200);
        let diffusion = divisor(random, product / t / quarters, 1, 20_000);
        let pressure = product / t / quarters / diffusion;
        let point = random.index(3);
        if (3..=249_000).contains(&pressure) {
            let around = |middle: i64, step: i64| [0, 1, 2].map(|index| middle + step * (index - point as i64));
            let temperatures = around(t as i64 - 27_300, random.within(1, 40)).to_vec();
            let pressures = around(pressure as i64, 1).map(|pressure| pressure as u64).to_vec();
            return Question { method, fuel: fuel_of_quarters(quarters), diffusion, curve: Curve { temperatures, pressures } };
        }
    }
}

/// A divisor between two bounds: the first from a random number on, or 1.
fn divisor(random: &mut Random, number: u64, low: u64, high: u64) -> u64 {
    let from = random.within(low as i64, high as i64) as u64;
    (from..=high).chain(low..from).find(|candidate| number.is_multiple_of(*candidate)).unwrap_or(1)
}

fn flashes(source: &mut Source) -> u64 {
    let mut tally = Tally::new("jlt_flash_by_curve", &[0, 2, 3, 4, 11, 12, 13, 16, 18]);
    let mut scans = 0;
    for round in 0..CASES {
        let random = &mut source.random;
        let question = if round % 20 == 0 { equal_question(random) } else { any_question(random) };
        let Question { method, fuel, diffusion, curve } = &question;
        let Curve { temperatures, pressures } = curve;
        let (t, p) = (source.temperatures.hold(temperatures), source.pressures.hold(pressures));
        let peer = temperature_of(curve::flash(*method, fuel, *diffusion, temperatures, pressures));
        let library = flash_by_curve(*method, fuel, *diffusion, t, p);
        let input = || format!("method {method}, {fuel:?}, D0 {diffusion} on {temperatures:?} {pressures:?}");
        tally.compare(library, peer, input);
        assert!(t == &temperatures[..] && p == &pressures[..], "a lent curve changed");
        scans += u64::from(scanned(library, curve, || scan::flash(level(*method), fuel, *diffusion, temperatures, pressures), input));
    }
    let inputs = tally.finish();
    println!("    {scans} of them also searched one by one");
    inputs
}
