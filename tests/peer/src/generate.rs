//! Inputs from a seed: likely, at the edges, and damaged.

use peer::blend::Blend;
use peer::formula::{Atoms, SYMBOLS};

/// SplitMix64.
pub struct Random(pub u64);

impl Random {
    pub fn next(&mut self) -> u64 {
        self.0 = self.0.wrapping_add(0x9e37_79b9_7f4a_7c15);
        let z = (self.0 ^ self.0 >> 30).wrapping_mul(0xbf58_476d_1ce4_e5b9);
        let z = (z ^ z >> 27).wrapping_mul(0x94d0_49bb_1331_11eb);
        z ^ z >> 31
    }

    pub fn below(&mut self, bound: u64) -> u64 {
        ((u128::from(self.next()) * u128::from(bound)) >> 64) as u64
    }

    pub fn index(&mut self, bound: usize) -> usize {
        self.below(bound as u64) as usize
    }

    pub fn within(&mut self, low: i64, high: i64) -> i64 {
        low + self.below((high - low + 1) as u64) as i64
    }

    /// A number of exactly so many bits, from 0 to 64.
    pub fn of_bits(&mut self, bits: u64) -> u64 {
        match bits {
            0 => 0,
            _ => (self.next() | 1 << 63) >> (64 - bits),
        }
    }

    pub fn one_in(&mut self, times: u64) -> bool {
        self.below(times) == 0
    }

    pub fn pick<T: Copy>(&mut self, items: &[T]) -> T {
        items[self.index(items.len())]
    }

    pub fn shuffle<T>(&mut self, items: &mut [T]) {
        for last in (1..items.len()).rev() {
            items.swap(last, self.index(last + 1));
        }
    }
}

const ALPHABET: &[u8] = b"CHONSPFClBrSi()0123456789(C)Cl";
const COUNT_EDGES: [&str; 14] = ["0", "1", "2", "9", "10", "99", "100", "199", "200", "201", "999", "1000", "01", "007"];
pub const NUMBER_EDGES: [u64; 12] = [0, 1, 2, 199, 200, 201, 202, 255, 1 << 32, u64::MAX / 2 + 1, u64::MAX - 1, u64::MAX];

fn push_symbol(random: &mut Random, out: &mut Vec<u8>) {
    let element = if random.one_in(2) { random.index(4) } else { random.index(10) };
    out.extend(SYMBOLS[element].bytes());
}

fn push_count(random: &mut Random, out: &mut Vec<u8>) {
    let count = match random.below(24) {
        0..=11 => return,
        12..=20 => random.within(1, 9),
        21 => random.within(10, 99),
        22 => random.pick(&[66, 67, 100, 199, 200, 201, 999]),
        _ => random.within(1, 999),
    };
    out.extend(count.to_string().bytes());
}

/// A formula of a few items, groups nested at most `depth` deep.
fn push_formula(random: &mut Random, depth: u64, out: &mut Vec<u8>) {
    for _ in 0..random.within(1, 4) {
        if depth > 0 && random.one_in(5) {
            out.push(b'(');
            push_formula(random, depth - 1, out);
            out.push(b')');
        } else {
            push_symbol(random, out);
        }
        push_count(random, out);
    }
}

fn formula(random: &mut Random) -> Vec<u8> {
    let mut out = Vec::new();
    push_formula(random, 8, &mut out);
    out
}

/// Formulas one after the other up to at least `length` bytes.
fn long_formula(random: &mut Random, length: usize) -> Vec<u8> {
    let mut out = Vec::new();
    while out.len() < length {
        push_formula(random, 8, &mut out);
    }
    out
}

/// Exactly `length` bytes, a formula: cut at a place where symbols stand alone.
pub fn formula_of_length(random: &mut Random, length: usize) -> Vec<u8> {
    let mut out = Vec::new();
    while out.len() < length {
        let mut item = Vec::new();
        push_formula(random, 8, &mut item);
        if out.len() + item.len() > length {
            item = b"C".to_vec();
        }
        out.extend(item);
    }
    out
}

/// Groups nested 6 to 10 deep with small counts, at times without their end.
fn nested(random: &mut Random) -> Vec<u8> {
    let depth = random.within(6, 10) as usize;
    let mut out = Vec::new();
    if random.one_in(2) {
        push_symbol(random, &mut out);
    }
    for _ in 0..depth {
        out.extend(b"(");
        if random.one_in(3) {
            push_symbol(random, &mut out);
        }
    }
    push_symbol(random, &mut out);
    for _ in 0..random.pick(&[depth, depth, depth, depth - 1, depth + 1]) {
        out.push(b')');
        push_count(random, &mut out);
    }
    out
}

/// Groups with counts of powers of two, whose products end in many zero bits.
fn tower(random: &mut Random) -> Vec<u8> {
    let depth = random.within(1, 8) as usize;
    let mut out = vec![b'('; depth];
    push_symbol(random, &mut out);
    for _ in 0..depth {
        out.extend(format!("{})", random.pick(&[64, 128, 256, 512, 512])).bytes());
    }
    out.extend(random.pick(&["", "512", "H", "C3"]).bytes());
    out
}

/// An item with a count at the edge, between others.
fn edge_count(random: &mut Random) -> Vec<u8> {
    let mut out = Vec::new();
    if random.one_in(2) {
        push_formula(random, 1, &mut out);
    }
    if random.one_in(3) {
        out.push(b'(');
        push_symbol(random, &mut out);
        out.push(b')');
    } else {
        push_symbol(random, &mut out);
    }
    out.extend(random.pick(&COUNT_EDGES).bytes());
    if random.one_in(2) {
        push_formula(random, 1, &mut out);
    }
    out
}

/// One element whose total is 199 to 202 through a group and the rest beside it.
fn edge_total(random: &mut Random) -> Vec<u8> {
    let symbol = random.pick(&SYMBOLS);
    let (times, total) = (random.within(2, 60), random.within(199, 202));
    let inner = total / times;
    let rest = total - inner * times;
    let mut text = format!("({symbol}{inner}){times}");
    if rest > 0 {
        text += &format!("{symbol}{rest}");
    }
    if random.one_in(3) {
        text = format!("({text})");
    }
    text.into_bytes()
}

/// Bytes of formulas in any order.
fn soup(random: &mut Random) -> Vec<u8> {
    (0..random.below(30)).map(|_| random.pick(ALPHABET)).collect()
}

fn edge_length(random: &mut Random) -> Vec<u8> {
    let length = random.pick(&[254, 255, 256, 256, 257, 258, 300, 512, 1_000, 5_000]);
    formula_of_length(random, length)
}

/// One to three changes: a byte changed, cut out, put in, doubled, or the rest cut off.
pub fn damage(random: &mut Random, text: &mut Vec<u8>, alphabet: &[u8]) {
    for _ in 0..random.within(1, 3) {
        let at = random.index(text.len() + 1);
        let byte = if random.one_in(3) { random.next() as u8 } else { random.pick(alphabet) };
        match random.below(6) {
            0 | 1 if at < text.len() => text[at] = byte,
            2 if at < text.len() => drop(text.remove(at)),
            3 => text.insert(at, byte),
            4 if at < text.len() => text.insert(at, text[at]),
            5 => text.truncate(at),
            _ => text.push(byte),
        }
    }
}

fn damaged(random: &mut Random, mut text: Vec<u8>) -> Vec<u8> {
    damage(random, &mut text, ALPHABET);
    text
}

/// Texts for the reader of formulas.
pub fn text(random: &mut Random) -> Vec<u8> {
    match random.below(20) {
        0..=5 => formula(random),
        6 => {
            let length = random.index(240);
            long_formula(random, length)
        }
        7 => nested(random),
        8 => tower(random),
        9..=10 => edge_count(random),
        11..=12 => edge_total(random),
        13 => soup(random),
        14 => edge_length(random),
        15..=16 => {
            let text = formula(random);
            damaged(random, text)
        }
        17 => {
            let length = random.index(250);
            let text = long_formula(random, length);
            damaged(random, text)
        }
        18 => {
            let text = nested(random);
            damaged(random, text)
        }
        _ => fuel_text(random),
    }
}

/// Counts of a fuel that the limits admit, mostly.
fn likely_fuel(random: &mut Random) -> Atoms {
    let mut atoms = [0; 10];
    atoms[0] = if random.one_in(8) { random.pick(&[1, 199, 200]) } else { random.below(20) + 1 };
    atoms[1] = random.below(2 * atoms[0] + 3).min(200);
    if random.one_in(2) {
        atoms[2] = random.below(4);
    }
    if random.one_in(3) {
        atoms[3] = random.below(4);
    }
    if random.one_in(4) {
        atoms[7] = 1;
    }
    atoms
}

/// Counts of C, H, O with a wanted number of quarters, near an edge.
fn wanted_quarters(random: &mut Random) -> Atoms {
    let wanted = random.pick(&[-1, 0, 1, 2, 3, 29, 30, 31, 32, 998, 999, 1_000]);
    let mut atoms = [0; 10];
    for _ in 0..40 {
        let (c, o) = (if wanted > 990 { 200 } else { random.within(1, 60) }, random.within(0, 100));
        let h = wanted - 4 * c + 2 * o;
        if (0..=200).contains(&h) {
            (atoms[0], atoms[1], atoms[2]) = (c as u64, h as u64, o as u64);
            return atoms;
        }
    }
    atoms[0] = 1;
    atoms
}

fn any_elements(random: &mut Random) -> Atoms {
    std::array::from_fn(|_| if random.one_in(2) { 0 } else { random.below(7) })
}

/// Counts at and beyond the edges among small ones.
fn edge_counts(random: &mut Random) -> Atoms {
    let mut atoms = any_elements(random);
    for _ in 0..random.within(1, 2) {
        atoms[random.index(10)] = random.pick(&NUMBER_EDGES);
    }
    atoms
}

pub fn counts(random: &mut Random) -> Atoms {
    match random.below(16) {
        0..=6 => likely_fuel(random),
        7..=9 => wanted_quarters(random),
        10 => {
            let mut atoms = likely_fuel(random);
            atoms[random.index(10)] = random.pick(&[0, 1, 2, 200, 201]);
            atoms
        }
        11..=12 => any_elements(random),
        13 => [0; 10],
        _ => edge_counts(random),
    }
}

/// C and H, or CO, with so many quarters: 2 to 1,000.
pub fn fuel_of_quarters(quarters: u64) -> Atoms {
    let mut atoms = [0; 10];
    let carbon = (quarters / 4).clamp(1, 200);
    let oxygen = if quarters < 4 { 1 } else { 0 };
    (atoms[0], atoms[1], atoms[2]) = (carbon, quarters + 2 * oxygen - 4 * carbon, oxygen);
    atoms
}

/// Counts as text: elements in any order, at times in pieces and groups. Counts above 999 are left out.
pub fn spelled(random: &mut Random, atoms: &Atoms) -> Vec<u8> {
    let mut pieces = Vec::new();
    for (symbol, &count) in SYMBOLS.iter().zip(atoms).filter(|(_, &count)| (1..=999).contains(&count)) {
        let first = if random.one_in(3) { random.below(count) } else { 0 };
        for part in [first, count - first].into_iter().filter(|&part| part > 0) {
            pieces.push(piece(random, symbol, part));
        }
    }
    random.shuffle(&mut pieces);
    pieces.concat().into_bytes()
}

fn piece(random: &mut Random, symbol: &str, count: u64) -> String {
    let number = if count == 1 && random.one_in(2) { String::new() } else { count.to_string() };
    match random.below(4) {
        0 => format!("({symbol}{number})"),
        1 => format!("({symbol}){number}"),
        _ => format!("{symbol}{number}"),
    }
}

/// Texts of fuels: admitted ones mostly.
pub fn fuel_text(random: &mut Random) -> Vec<u8> {
    match random.below(12) {
        0 => formula(random),
        1 => {
            let atoms = likely_fuel(random);
            let text = spelled(random, &atoms);
            damaged(random, text)
        }
        _ => {
            let atoms = counts(random);
            spelled(random, &atoms)
        }
    }
}

pub fn temperature(random: &mut Random) -> i64 {
    match random.below(4) {
        0 => random.pick(&[-1, 0, 1, 2_000, 2_500, 13_400, 19_999, 20_000, 20_001, -20_000, i64::MIN, i64::MAX]),
        1 => random.within(-2_000, 22_000),
        _ => random.within(0, 20_000),
    }
}

pub fn boiling(random: &mut Random) -> i64 {
    match random.below(5) {
        0 => random.pick(&[-20_001, -20_000, -19_999, 0, 59_999, 60_000, 60_001, i64::MIN, i64::MAX]),
        1 => random.within(-25_000, 65_000),
        _ => random.within(-20_000, 60_000),
    }
}

pub fn parts(random: &mut Random) -> u64 {
    match random.below(4) {
        0 => random.pick(&[0, 1, 2, 199, 999_999, 1_000_000, 1_000_001, u64::MAX - 999_999, u64::MAX]),
        1 => random.below(1_000_001),
        2 => random.below(100_000),
        _ => random.below(100),
    }
}

/// A blend made by addings of the peer.
fn true_blend(random: &mut Random) -> Blend {
    let mut blend = Blend::EMPTY;
    for _ in 0..random.below(5) {
        let fuel = likely_fuel(random);
        let parts = parts(random);
        blend = blend.add(&fuel, parts).unwrap_or(blend);
    }
    blend
}

/// A sum at the bound of a total or one off, or between.
fn bounded_sum(random: &mut Random, total: u64, (least, most): (u64, u64)) -> u64 {
    let (low, high) = (total.wrapping_mul(least), total.wrapping_mul(most));
    match random.below(10) {
        0 => low.wrapping_sub(1),
        1 => low,
        2 => low.wrapping_add(1),
        3 => high.wrapping_sub(1),
        4 => high,
        5 => high.wrapping_add(1),
        _ => low.wrapping_add(random.below(high.wrapping_sub(low).max(1))),
    }
}

fn edge_blend(random: &mut Random) -> Blend {
    let total = match random.below(3) {
        0 => random.pick(&[0, 1, 2, 999_999, 1_000_000, 1_000_001, 1 << 40, u64::MAX]),
        _ => random.below(1_000_002),
    };
    Blend { total, lower: bounded_sum(random, total, (9_021, 2_175_679)), upper: bounded_sum(random, total, (2_670, 397_108)) }
}

/// A blend and a temperature at which one of its limits is a whole number and a half.
/// 313 divides 1277.00 - t, and 203 divides t + 787.00, so that twice the limit is an odd number.
pub fn tie(random: &mut Random) -> (Blend, i64) {
    let lower_tie = random.one_in(2);
    let (least, most) = if lower_tie { (11, 1_911) } else { (123, 14_531) };
    let odd = random.within(least, most) as u64 | 1;
    let share = random.below(1_000_000 / odd) + 1;
    let total = odd * share;
    if lower_tie {
        let factor = random.within(345, 407);
        let upper = total * 2_670 + random.below(total * (397_108 - 2_670));
        return (Blend { total, lower: 50_000 * share * factor as u64, upper }, 127_700 - 313 * factor);
    }
    let factor = random.within(388, 486);
    let lower = total * 9_021 + random.below(total * (2_175_679 - 9_021));
    (Blend { total, lower, upper: 100_000 * share * factor as u64 }, 203 * factor - 78_700)
}

/// Quarters and temperature of every fuel with a limit of whole hundredths, for 151 quarters the lower and otherwise the upper; and of the only one with a
/// half, 11 quarters, the lower.
const EXACT_LIMITS: [(u64, i64); 9] =
    [(151, 2_813), (4, 6_966), (88, 16_507), (113, 13_056), (238, 6_154), (363, 7_981), (488, 2_703), (988, 16_913), (11, 15_959)];

/// One of these, or a hundredth of a degree beside it.
pub fn exact_limits(random: &mut Random) -> (Atoms, i64) {
    let (quarters, t) = random.pick(&EXACT_LIMITS);
    (fuel_of_quarters(quarters), t + random.pick(&[0, 0, -1, 1]))
}

/// Temperatures at which 68,287,500 phi / (t + 27,315) is whole for every phi, but at the last two a half for an odd one.
const EXACT_VOLUMES: [i64; 8] = [0, 810, 3_035, 9_105, 10_185, 18_210, 16_389, 17_685];

/// A fuel of molar mass 5603.5, a quarter of 22,414, whose mass concentration is the quotient above, and such a temperature.
pub fn exact_mass(random: &mut Random) -> (Atoms, i64) {
    let (carbon, oxygen) = (random.within(150, 200) as u64, random.within(61, 198) as u64);
    let rest = 5_568 - 12 * carbon - 16 * oxygen;
    ([carbon, rest % 14, oxygen, rest / 14, 0, 0, 0, 1, 0, 0], random.pick(&EXACT_VOLUMES))
}

/// Limits in half hundredths that divide what stands over the mean below, and lie between those of 2 and of 1,000 quarters at every temperature.
const LOWER_HALVES: [u64; 16] = [10, 16, 20, 25, 40, 50, 80, 100, 125, 200, 250, 400, 500, 625, 1_000, 1_250];
const UPPER_HALVES: [u64; 17] = [125, 160, 200, 250, 400, 500, 625, 800, 1_000, 1_250, 2_000, 2_500, 3_125, 4_000, 5_000, 10_000, 12_500];

/// Two fuels with neighbouring quarters, and parts, at most 679,523 in all, by which a limit of their blend is one of these.
/// In half hundredths the lower limit is 50,000 (1277.00 - t) over 313 times the mean of the fuels' thousandths, the upper 100,000 (t + 787.00) over 203 times
/// that of their two-thousandths.
pub fn exact_mixture(random: &mut Random, t: i64) -> [(Atoms, u64); 2] {
    let (wanted, factor, sum): (u64, u64, fn(Blend) -> u64) = if random.one_in(2) {
        (50_000 * (127_700 - t) as u64 / random.pick(&LOWER_HALVES), 313, |blend| blend.lower)
    } else {
        (100_000 * (t + 78_700) as u64 / random.pick(&UPPER_HALVES), 203, |blend| blend.upper)
    };
    let found = |quarters| factor * Blend::EMPTY.add(&fuel_of_quarters(quarters), 1).map_or(0, sum);
    let first = (2..1_000).rfind(|&quarters| found(quarters) <= wanted).unwrap_or(2);
    let parts = [found(first + 1) - wanted, wanted - found(first)];
    [(fuel_of_quarters(first), parts[0]), (fuel_of_quarters(first + 1), parts[1])]
}

pub fn blend(random: &mut Random) -> Blend {
    match random.below(8) {
        0..=3 => true_blend(random),
        4..=6 => edge_blend(random),
        _ => Blend { total: any_number(random), lower: any_number(random), upper: any_number(random) },
    }
}

fn any_number(random: &mut Random) -> u64 {
    if random.one_in(3) {
        return random.pick(&NUMBER_EDGES);
    }
    let shift = random.below(64);
    random.next() >> shift
}
