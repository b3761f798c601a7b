//! Times library and peer on the same inputs, answered ones (an overload is refused), and how the library's cost grows with the length of the input.
//! Under callgrind it counts the instructions of each side instead, which a busy machine does not change.

use crate::callgrind;
use crate::curves::Curve;
use crate::generate::Random;
use crate::library::{self as lib, Shown, ANSWERED};
use peer::analyser::{parts, Method, Reading};
use peer::blend::Blend;
use peer::division::divide;
use peer::flash::{by_bonds, by_class};
use peer::formula::{self, Atoms};
use peer::{curve, limits, sheet};
use std::hint::black_box;
use std::process::exit;
use std::time::{Duration, Instant};

const SEED: u64 = 7;
const INPUTS: usize = 64;
/// So many that a processor does not learn how each division goes.
const DIVISIONS: usize = 4_096;
const ROUNDS: usize = 7;
const ROUND: Duration = Duration::from_millis(60);
/// How much dearer a unit of a longer input may be: what the clock of a shared machine needs.
const TOLERANCE: f64 = 1.5;

pub fn run() {
    if !callgrind::is_running() {
        println!("{:<40}{:>12}{:>12}{:>8}", "", "library ns", "peer ns", "ratio");
    }
    let random = &mut Random(SEED);
    let follows = divisions(&mut Random(SEED));
    fuels(random);
    blends(random);
    points(random);
    readings(random);
    counts(random);
    let grows = follows & texts(random) & vapour(random) & sheets(random);
    if !grows {
        println!("FAILED: a cost does not follow its input");
        exit(1);
    }
}

/// Nanoseconds for each call, over as many passes through the inputs as a round has time for.
fn round<I, A>(inputs: &[I], call: fn(&I) -> A) -> f64 {
    let call = black_box(call);
    let start = Instant::now();
    let mut calls = 0;
    while start.elapsed() < ROUND {
        for input in inputs {
            black_box(call(black_box(input)));
        }
        calls += inputs.len();
    }
    start.elapsed().as_nanos() as f64 / calls as f64
}

fn median(mut times: Vec<f64>) -> f64 {
    times.sort_by(f64::total_cmp);
    times[times.len() / 2]
}

/// One pass through the inputs, counted under the name of the row and the side.
fn counted<I, A>(name: &str, side: &str, inputs: &[I], call: fn(&I) -> A) {
    let call = black_box(call);
    callgrind::count(&format!("{}|{name}|{side}", inputs.len()), || {
        for input in inputs {
            black_box(call(black_box(input)));
        }
    });
}

/// One line: both sides over all inputs, called through pointers, in turns. Answers the library's time.
fn row<I, A: Shown, B>(name: &str, inputs: &[I], library: fn(&I) -> A, peer: fn(&I) -> B) -> f64 {
    if callgrind::is_running() {
        counted(name, "library", inputs, library);
        counted(name, "peer", inputs, peer);
        return 0.0;
    }
    let (first, second) = (0..ROUNDS).map(|_| (round(inputs, library), round(inputs, peer))).unzip();
    let (first, second) = (median(first), median(second));
    print!("{name:<40}{first:>12.1}{second:>12.1}{:>8.2}", first / second);
    match inputs.iter().filter(|input| library(input).refusal() != ANSWERED).count() {
        0 => println!(),
        refused => println!("   {refused} of {} refused", inputs.len()),
    }
    first
}

/// Whether the library's time grows no faster than the size, from each size to the next.
fn growth(unit: &str, sizes: &[(usize, f64)]) -> bool {
    if callgrind::is_running() {
        return true;
    }
    let each = sizes.iter().map(|&(size, time)| format!("{size}: {:.2}", time / size as f64)).collect::<Vec<_>>();
    let good = sizes.windows(2).all(|pair| pair[1].1 / pair[0].1 <= TOLERANCE * pair[1].0 as f64 / pair[0].0 as f64);
    println!("    ns for each {unit} of {}: {}", each.join(", "), if good { "grows no faster" } else { "GROWS FASTER" });
    good
}

fn many<T>(make: impl FnMut() -> T) -> Vec<T> {
    std::iter::repeat_with(make).take(INPUTS).collect()
}

/// A number and its divisor with a quotient of so many bits.
fn division(random: &mut Random, bits: u64) -> (u64, u64) {
    let quotient = random.of_bits(bits);
    let divisor_bits = random.below(65 - bits);
    let d = random.of_bits(divisor_bits).max(1);
    (quotient * d + random.below(d), d)
}

/// Beside the processor's own division. Whether the cost follows the bits of the quotient: no faster, and not as if there were always 64.
fn divisions(random: &mut Random) -> bool {
    let mut quotients = |name: &str, least: u64, most: u64| {
        let mut make = || {
            let bits = least + random.below(most - least + 1);
            division(random, bits)
        };
        let inputs: Vec<_> = (0..DIVISIONS).map(|_| make()).collect();
        row(&format!("jlt_divide, {name} bits"), &inputs, |&(n, d)| lib::divide(n, d), |&(n, d)| divide(n, d))
    };
    quotients("10 to 14", 10, 14);
    let sizes = [4, 16, 64].map(|bits| (bits as usize, quotients(&bits.to_string(), bits, bits)));
    growth("bit", &sizes) & (4.0 * sizes[0].1 <= sizes[2].1)
}

/// A formula of so many bytes with at most 200 atoms of an element.
fn text(random: &mut Random, length: usize) -> Vec<u8> {
    let pieces = ["C", "H2", "O", "N", "Cl", "(CH3)", "(OH)2", "Br", "Si", "((S)P)", "F3", "(((((((H)))))))"];
    let mut out = String::new();
    while out.len() < length {
        let piece = random.pick(&pieces);
        out += if out.len() + piece.len() > length { "C" } else { piece };
    }
    out.into_bytes()
}

fn texts(random: &mut Random) -> bool {
    let sizes = [16, 64, 256].map(|length| {
        let inputs = many(|| text(random, length));
        (length, row(&format!("jlw_read_formula, {length} bytes"), &inputs, |text| lib::read_formula(text), |text| formula::read(text)))
    });
    let good = growth("byte", &sizes);
    let inputs = many(|| fuel(random));
    row("jlw_write_formula, a fuel", &inputs, |atoms| lib::write_formula(atoms, &mut [0; 64]), |atoms| formula::write(atoms, &mut [0; 64]));
    let inputs: Vec<Atoms> = many(|| std::array::from_fn(|_| random.below(200) + 1));
    row(
        "jlw_write_formula, ten elements",
        &inputs,
        |atoms| lib::write_formula(atoms, &mut [0; 64]),
        |atoms| formula::write(atoms, &mut [0; 64]),
    );
    good
}

/// A fuel of C, H, O, N that every question admits.
fn fuel(random: &mut Random) -> Atoms {
    let carbon = random.below(12) + 2;
    [carbon, 2 * carbon + 2, random.below(3), random.below(2), 0, 0, 0, 0, 0, 0]
}

fn fuel_text(random: &mut Random) -> Vec<u8> {
    let mut out = [0; 64];
    let length = formula::write(&fuel(random), &mut out).unwrap_or(0);
    out[..length].to_vec()
}

fn fuels(random: &mut Random) {
    let texts = many(|| fuel_text(random));
    row("jlw_oxygen_coefficient", &texts, |text| lib::oxygen_coefficient(text), |text| limits::oxygen_coefficient_of_text(text));
    row(
        "jlw_stoichiometric_fraction",
        &texts,
        |text| lib::stoichiometric_fraction(text),
        |text| limits::stoichiometric_fraction_of_text(text),
    );
    row("jlw_fuel_limits", &texts, |text| lib::fuel_limits(text), |text| limits::fuel_limits_of_text(text));
    row("jlw_fuel_limits_at", &texts, |text| lib::fuel_limits_at(text, 13_400), |text| limits::fuel_limits_of_text_at(text, 13_400));
    row(
        "jlw_mass_concentration",
        &texts,
        |text| lib::mass_concentration(text, 13_400),
        |text| limits::mass_concentration_of_text(text, 13_400),
    );
}

fn blend(random: &mut Random) -> Blend {
    (0..4).fold(Blend::EMPTY, |blend, _| blend.add(&fuel(random), random.below(100_000) + 1).unwrap_or(blend))
}

fn blends(random: &mut Random) {
    let adds = many(|| (blend(random), fuel_text(random), random.below(1_000)));
    row(
        "jlw_add_fuel",
        &adds,
        |(blend, text, parts)| lib::add_fuel(*blend, text, *parts),
        |(blend, text, parts)| blend.add_text(text, *parts),
    );
    let pairs = many(|| (blend(random), blend(random)));
    row("jlw_join_blends", &pairs, |&(first, second)| lib::join_blends(first, second), |(first, second)| first.join(*second));
    let asks = many(|| (blend(random), random.within(0, 20_000)));
    row("jlw_blend_limits", &asks, |ask| lib::blend_limits(ask.0), |ask| ask.0.limits());
    row("jlw_blend_limits_at", &asks, |ask| lib::blend_limits_at(ask.0, ask.1), |ask| ask.0.limits_at(ask.1));
}

fn points(random: &mut Random) {
    let inputs = many(|| {
        let mut bonds = [0; 22];
        [0, 1, 3, 4, 17].iter().for_each(|&kind| bonds[kind] = random.below(8) + 1);
        let atoms: Atoms = [6, bonds[3] + bonds[17], 2, 0, 0, 0, 0, 0, 0, 0];
        (random.below(3) + 1, atoms, bonds, random.within(0, 20_000))
    });
    row("jlt_flash_by_bonds", &inputs, |(m, a, b, t)| lib::flash_by_bonds(*m, a, b, *t), |(m, a, b, t)| by_bonds(*m, a, b, *t));
    let inputs = many(|| (random.below(10) + 1, random.within(0, 20_000)));
    row("jlt_flash_by_class", &inputs, |input| lib::flash_by_class(input.0, input.1), |input| by_class(input.0, input.1));
}

/// A rising curve of so many points that reaches 10,000 Pa, so that each condition is met on its way.
fn vapour_curve(random: &mut Random, points: usize) -> Curve {
    let step = 8_000 / points as i64;
    let rise = 10_000 / points as u64;
    let temperatures = (0..points).map(|point| -2_000 + point as i64 * step + random.below(step as u64) as i64).collect();
    let pressures = (0..points).map(|point| 100 + point as u64 * rise + random.below(rise)).collect();
    Curve { temperatures, pressures }
}

fn vapour(random: &mut Random) -> bool {
    let mut sizes = (Vec::new(), Vec::new());
    for points in [64, 512, 4_096] {
        let inputs = many(|| (fuel(random), vapour_curve(random, points)));
        let limit = row(
            &format!("jlt_lower_temperature_limit, {points} points"),
            &inputs,
            |(fuel, curve)| lib::lower_temperature_limit(fuel, &curve.temperatures, &curve.pressures),
            |(fuel, curve)| curve::lower_temperature_limit(fuel, &curve.temperatures, &curve.pressures),
        );
        let flash = row(
            &format!("jlt_flash_by_curve, {points} points"),
            &inputs,
            |(fuel, curve)| lib::flash_by_curve(1, fuel, 600, &curve.temperatures, &curve.pressures),
            |(fuel, curve)| curve::flash(1, fuel, 600, &curve.temperatures, &curve.pressures),
        );
        sizes.0.push((points, limit));
        sizes.1.push((points, flash));
    }
    growth("point", &sizes.0) & growth("point", &sizes.1)
}

fn readings(random: &mut Random) {
    let shares = many(|| random.below(1 << 53) as f64 / (1u64 << 53) as f64);
    let percent = |share: &f64| (Method { limit: 0.01, ceiling: 100.0 }, Reading::Percent(100.0 * share));
    let ppm = |share: &f64| (Method { limit: 1.0, ceiling: 1e6 }, Reading::Ppm(1e6 * share));
    let overload = |_: &f64| (Method { limit: 1.0, ceiling: 1e6 }, Reading::Overload);
    let inputs = [percent, ppm, overload].map(|kind: fn(&f64) -> _| shares.iter().map(kind).collect::<Vec<_>>());
    for (name, inputs) in ["jlt_parts_of_percent", "jlt_parts_of_ppm", "jlt_parts_of_overload"].iter().zip(inputs) {
        row(name, &inputs, |input| lib::parts(input.0, input.1), |input| parts(input.0, input.1));
    }
}

fn counts(random: &mut Random) {
    let fuels = many(|| fuel(random));
    row("jlt_oxygen_coefficient", &fuels, lib::oxygen_coefficient_by_counts, limits::oxygen_coefficient);
    row("jlt_fuel_limits_at", &fuels, |fuel| lib::fuel_limits_by_counts(fuel, 13_400), |fuel| limits::fuel_limits_at(fuel, 13_400));
    let adds = many(|| (blend(random), fuel(random), random.below(1_000)));
    row(
        "jlt_add_fuel",
        &adds,
        |(blend, fuel, parts)| lib::add_fuel_by_counts(*blend, fuel, *parts),
        |(blend, fuel, parts)| blend.add(fuel, *parts),
    );
}

fn sheets(random: &mut Random) -> bool {
    let sizes = [1_024, 8_192, 65_536].map(|size| {
        let inputs = many(|| sheet_text(random, size));
        (size, row(&format!("jlt_sheet_answer, {size} bytes"), &inputs, |text| lib::sheet_answer(text), |text| sheet::answer(text)))
    });
    let good = growth("byte", &sizes);
    let pairs = many(|| (random.below(1_000), random.below(8_000)));
    row(
        "jlt_write_sheet_answer",
        &pairs,
        |pair| lib::write_sheet_answer(ANSWERED, pair.0, pair.1, &mut [0; 96]),
        |pair| sheet::write_answer(Ok(*pair), &mut [0; 96]),
    );
    good
}

/// Records of fuels at a few parts each, up to so many bytes.
fn sheet_text(random: &mut Random, size: usize) -> Vec<u8> {
    let mut out = b"formula,parts".to_vec();
    loop {
        let record = [b"\r\n", &fuel_text(random)[..], format!(",{}", random.below(90) + 1).as_bytes()].concat();
        if out.len() + record.len() > size {
            return out;
        }
        out.extend(record);
    }
}
