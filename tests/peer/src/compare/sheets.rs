//! The mixture sheet, valid and damaged, and its answer as text.

use super::{Source, Tally, OF_LIMITS};
use crate::generate::{damage, exact_mixture, fuel_text, spelled, Random};
use crate::library::*;
use peer::blend::USUAL_TEMPERATURE;
use peer::refusal::Refusal;
use peer::sheet;

pub fn run(source: &mut Source) -> u64 {
    answers(source) + texts(source)
}

const ALPHABET: &[u8] = b",,\"\r\n\r\n00123456789CHON()";
const HEADERS: [&str; 10] = [
    "",
    "formula",
    "formula,parts,",
    "Formula,parts",
    "formula, parts",
    "\u{feff}formula,parts",
    "\"formula\",parts",
    "formula,parts\n",
    "formula,parts\r",
    "formula;parts",
];
const PARTS: [&str; 16] =
    ["", "0", "00", "01", "1", "9999999", "10000000", "1000000", "1000001", "-1", "+1", "1 ", " 1", "1.0", "1e3", "12a4567"];

fn parts(random: &mut Random) -> String {
    match random.below(24) {
        0 => random.pick(&PARTS).to_string(),
        1 => random.below(1_000_001).to_string(),
        2 => "0".to_string(),
        _ => random.below(60_000).to_string(),
    }
}

/// Fuels that are admitted, mostly; at times a field of any bytes but those of the form.
fn formula(random: &mut Random) -> Vec<u8> {
    const FUELS: [&str; 8] = ["CH4", "C2H6", "C3H8", "C6H6", "CH3OH", "C2H5OC2H5", "(CH3)2CO", "C6H5Cl"];
    match random.below(60) {
        0 => fuel_text(random),
        1 => (0..random.below(300)).map(|_| random.next() as u8).filter(|byte| !b",\"\r\n".contains(byte)).collect(),
        2 => Vec::new(),
        _ => random.pick(&FUELS).as_bytes().to_vec(),
    }
}

fn sheet(random: &mut Random) -> Vec<u8> {
    let header = if random.one_in(30) { random.pick(&HEADERS) } else { "formula,parts" };
    let mut out = header.as_bytes().to_vec();
    for _ in 0..random.below(10) {
        out.extend(b"\r\n");
        out.extend(formula(random));
        out.push(b',');
        out.extend(parts(random).bytes());
    }
    if random.one_in(2) {
        out.extend(b"\r\n");
    }
    out
}

/// A sheet with a limit of whole hundredths, or that and a half.
fn exact_sheet(random: &mut Random) -> Vec<u8> {
    let mut out = b"formula,parts".to_vec();
    for (fuel, parts) in exact_mixture(random, USUAL_TEMPERATURE) {
        out.extend([b"\r\n", &spelled(random, &fuel)[..], format!(",{parts}").as_bytes()].concat());
    }
    out
}

/// Exactly `length` bytes: many records, the last one padded to fit.
pub fn sheet_of_length(random: &mut Random, length: usize) -> Vec<u8> {
    let mut out = b"formula,parts".to_vec();
    while out.len() + 40 < length {
        out.extend(b"\r\nCH4,");
        out.extend(random.below(100).to_string().bytes());
    }
    let left = length.saturating_sub(out.len() + 4);
    out.extend(b"\r\n");
    out.extend(vec![b'C'; left]);
    out.extend(b",1");
    out
}

fn answers(source: &mut Source) -> u64 {
    let mut tally = Tally::marked("jlt_sheet_answer", &[0, 1, 2, 3, 4, 8, 9, 15], OF_LIMITS);
    let mut one = |source: &mut Source, text: &[u8]| {
        let lent = source.bytes.hold(text);
        tally.compare(sheet_answer(lent), limits_of(sheet::answer(text)), || text.escape_ascii().to_string());
        tally.compare_bytes(lent, text, || text.escape_ascii().to_string());
    };
    every_byte_damaged(source, &mut one);
    for length in [65_534, 65_535, 65_536, 65_537, 65_538, 131_072, 200_000] {
        let text = sheet_of_length(&mut source.random, length);
        one(source, &text);
        one(source, &[&text[..length - 2], b"\r\n"].concat());
    }
    for round in 0..120_000 {
        let mut text = if round % 16 == 1 { exact_sheet(&mut source.random) } else { sheet(&mut source.random) };
        if round % 3 == 0 {
            damage(&mut source.random, &mut text, ALPHABET);
        }
        one(source, &text);
    }
    for _ in 0..100 {
        let length = source.random.index(65_536) + 60;
        let mut text = sheet_of_length(&mut source.random, length);
        damage(&mut source.random, &mut text, ALPHABET);
        one(source, &text);
    }
    tally.finish()
}

/// The printed sheet with each byte set to each value, cut out, and cut off behind.
fn every_byte_damaged(source: &mut Source, one: &mut impl FnMut(&mut Source, &[u8])) {
    let printed = b"formula,parts\r\nC3H8,300000\r\nC2H6,700000\r\n";
    for at in 0..printed.len() {
        for byte in 0..=255 {
            let mut text = printed.to_vec();
            text[at] = byte;
            one(source, &text);
            text = printed.to_vec();
            text.insert(at, byte);
            one(source, &text);
        }
        one(source, &printed[..at]);
        one(source, &[&printed[..at], &printed[at + 1..]].concat());
    }
}

fn number(random: &mut Random) -> u64 {
    let shift = random.below(64);
    match random.below(4) {
        0 => random.pick(&[0, 1, 5, 9, 10, 99, 100, 101, 258, 1_487, 9_999, 10_000, u64::MAX, u64::MAX - 1]),
        1 => random.below(10_000),
        _ => random.next() >> shift,
    }
}

fn texts(source: &mut Source) -> u64 {
    let mut tally = Tally::new("jlt_write_sheet_answer", &[0, 17]);
    for _ in 0..20_000 {
        let random = &mut source.random;
        let refusal = if random.one_in(2) { ANSWERED } else { Refusal { number: number(random), place: number(random) } };
        let limits = (number(random), number(random));
        write_into_rooms(source, &mut tally, refusal, limits);
    }
    tally.finish()
}

fn write_into_rooms(source: &mut Source, tally: &mut Tally, refusal: Refusal, limits: (u64, u64)) {
    let answer = if refusal.number == 0 { Ok(limits) } else { Err(refusal) };
    let length = sheet::write_answer(answer, &mut [0; 128]).unwrap_or(0);
    for room in (length - 2..=length + 2).chain([0, 1, source.random.index(128)]) {
        let mut expected = vec![source.random.next() as u8; room];
        let lent = source.bytes.hold(&expected);
        let library = write_sheet_answer(refusal, limits.0, limits.1, lent);
        let peer = figure_of(sheet::write_answer(answer, &mut expected).map(|length| length as u64));
        tally.compare(library, peer, || format!("{refusal:?} {limits:?} into {room} bytes"));
        tally.compare_bytes(lent, &expected, || format!("{refusal:?} {limits:?} into {room} bytes"));
    }
}
