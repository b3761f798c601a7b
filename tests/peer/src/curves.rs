//! Vapour curves from a seed: good ones that meet a condition at a chosen place, and bad ones.

use crate::generate::Random;

pub struct Curve {
    pub temperatures: Vec<i64>,
    pub pressures: Vec<u64>,
}

const COLDEST: i64 = -20_000;
const HOTTEST: i64 = 60_000;
const MOST_PRESSURE: u64 = 250_000;

fn points(random: &mut Random) -> usize {
    match random.below(64) {
        0..=11 => 2,
        12 => 4_096,
        13 => random.index(4_000) + 2,
        14..=20 => random.index(200) + 2,
        _ => random.index(12) + 2,
    }
}

/// `count` different numbers from `low` to `high` in rising order, at most half of them taken.
fn rising(random: &mut Random, count: usize, low: i64, high: i64) -> Vec<i64> {
    let mut found: Vec<i64> = (0..count).map(|_| random.within(low, high)).collect();
    found.sort_unstable();
    found.dedup();
    while found.len() < count {
        found.extend((found.len()..count).map(|_| random.within(low, high)).collect::<Vec<_>>());
        found.sort_unstable();
        found.dedup();
    }
    found
}

/// The temperatures of a curve: anywhere, in a narrow range, or reaching an end of the range.
fn temperatures(random: &mut Random, count: usize) -> Vec<i64> {
    let span = random.pick(&[30, 300, 3_000, 80_000]);
    let wide = (count as i64 * 3).max(random.within(10, span)).min(HOTTEST - COLDEST);
    let low = random.within(COLDEST, HOTTEST - wide);
    let mut found = rising(random, count, low, low + wide);
    if random.one_in(6) {
        found[0] = COLDEST;
    }
    if random.one_in(6) {
        found[count - 1] = HOTTEST;
    }
    found
}

fn pressures(random: &mut Random, count: usize, most: u64) -> Vec<u64> {
    let most = (count as u64 * 3).max(most).min(MOST_PRESSURE);
    rising(random, count, 1, most as i64).into_iter().map(|pressure| pressure as u64).collect()
}

/// A good curve; `least` is the smallest pressure that meets the condition at a temperature.
/// At a chosen point, often the first or the last, the pressure is that one or one off, where it fits between its neighbours.
pub fn good(random: &mut Random, least: impl Fn(i64) -> u64) -> Curve {
    let count = points(random);
    let temperatures = temperatures(random, count);
    let wanted = least(temperatures[random.index(count)]).clamp(1, MOST_PRESSURE);
    let most = if random.one_in(3) { MOST_PRESSURE } else { wanted.saturating_mul(random.below(4) + 1) };
    let mut pressures = pressures(random, count, most);
    if random.one_in(2) {
        let any = random.index(count);
        let chosen = random.pick(&[0, count - 1, any]);
        move_point(
            &mut pressures,
            chosen,
            least(temperatures[chosen]).saturating_add(random.pick(&[0, 0, 1])).saturating_sub(random.below(2)),
        );
    }
    Curve { temperatures, pressures }
}

/// Sets one pressure and pushes its neighbours aside where there is room.
fn move_point(pressures: &mut [u64], chosen: usize, wanted: u64) {
    let behind = (pressures.len() - 1 - chosen) as u64;
    if wanted <= chosen as u64 || wanted + behind > MOST_PRESSURE {
        return;
    }
    pressures[chosen] = wanted;
    for point in (0..chosen).rev() {
        pressures[point] = pressures[point].min(pressures[point + 1] - 1);
    }
    for point in chosen + 1..pressures.len() {
        pressures[point] = pressures[point].max(pressures[point - 1] + 1);
    }
}

/// Spoils one point or the lengths.
pub fn spoil(random: &mut Random, curve: &mut Curve) {
    let count = curve.temperatures.len();
    let any = random.index(count);
    let point = random.pick(&[0, 1, count - 1, any]);
    match random.below(11) {
        0 => curve.temperatures[point] = random.pick(&[COLDEST - 1, HOTTEST + 1, -27_300, -27_301, i64::MIN, i64::MAX]),
        1 => curve.pressures[point] = random.pick(&[0, MOST_PRESSURE + 1, u64::MAX, 1 << 63]),
        2 if point > 0 => curve.temperatures[point] = curve.temperatures[point - 1] - random.below(2) as i64,
        3 if point > 0 => curve.pressures[point] = curve.pressures[point - 1] - random.below(2),
        4 => curve.temperatures.swap(point, count - 1 - point),
        5 => drop(curve.temperatures.pop()),
        6 => drop(curve.pressures.pop()),
        7 => shorten(random, curve),
        8 => lengthen(curve),
        9 => random.pick(&[empty_temperatures as fn(&mut Curve), empty_pressures])(curve),
        _ => {
            let other = random.index(count);
            curve.pressures.swap(point, other);
        }
    }
}

fn empty_temperatures(curve: &mut Curve) {
    curve.temperatures.clear();
}

fn empty_pressures(curve: &mut Curve) {
    curve.pressures.clear();
}

/// No point, or one.
fn shorten(random: &mut Random, curve: &mut Curve) {
    let left = random.index(2);
    curve.temperatures.truncate(left);
    curve.pressures.truncate(left);
}

/// 4,097 points.
fn lengthen(curve: &mut Curve) {
    curve.temperatures = (0..4_097).collect();
    curve.pressures = (1..4_098).collect();
}
