//! The printed figures of the papers and a few exact ones by their formulas, with marks, asked of the peer, so that both sides are held to the papers.

use super::fail;
use peer::analyser::{parts, Method, Reading};
use peer::blend::Blend;
use peer::book::Book;
use peer::limits::{Pair, FIT_TEMPERATURE};
use peer::refusal::{refuse, Answer};
use peer::rounding::{Rounded, EXACT, LOWERED, RAISED};
use peer::{curve, flash, formula, limits, sheet};
use std::fmt::Debug;

fn same<T: PartialEq + Debug>(what: &str, peer: Answer<T>, paper: Answer<T>) {
    if peer != paper {
        fail(&format!("figure {what}: paper {paper:?}, peer {peer:?}"));
    }
}

fn rounded<T>(value: T, mark: u64) -> Answer<Rounded<T>> {
    Ok(Rounded { value, mark })
}

/// Each limit with its mark.
fn pair(lower: (u64, u64), upper: (u64, u64)) -> Answer<Pair> {
    Ok(Pair { lower: Rounded { value: lower.0, mark: lower.1 }, upper: Rounded { value: upper.0, mark: upper.1 } })
}

fn counts(text: &str) -> formula::Atoms {
    formula::read(text.as_bytes()).unwrap_or_default()
}

pub fn check() {
    texts();
    fuels();
    limits_at();
    masses();
    blends();
    points();
    curves();
    readings();
    sheets();
    println!("the peer gives the printed figures");
}

fn texts() {
    same("isopropanol", formula::read(b"CH3CH(OH)CH3"), Ok([3, 8, 1, 0, 0, 0, 0, 0, 0, 0]));
    same("C10((", formula::read(b"C10(("), refuse(1, 5));
    same("c", formula::read(b"c"), refuse(1, 0));
}

fn fuels() {
    same("CH4", limits::fuel_limits_of_text(b"CH4"), pair((455, LOWERED), (2_715, LOWERED)));
    same("C6H6", limits::fuel_limits_of_text(b"C6H6"), pair((144, RAISED), (816, RAISED)));
    same("CH4 fraction", limits::stoichiometric_fraction_of_text(b"CH4"), rounded(936, LOWERED));
    same("C3H8 fraction", limits::stoichiometric_fraction_of_text(b"C3H8"), rounded(397, RAISED));
    same("C5H5N fraction", limits::stoichiometric_fraction_of_text(b"C5H5N"), rounded(320, EXACT));
}

/// A fuel alone, and on a page of the book.
fn limits_at() {
    let figures = [
        ("CH4", FIT_TEMPERATURE, pair((454, RAISED), (2_732, LOWERED))),
        ("C6H6", FIT_TEMPERATURE, pair((143, LOWERED), (821, RAISED))),
        ("C7H8", FIT_TEMPERATURE, pair((121, RAISED), (743, RAISED))),
        ("CO2", FIT_TEMPERATURE, refuse(4, 0)),
        ("CH4", 13_400, pair((414, LOWERED), (3_099, LOWERED))),
        ("CH3Cl", 18_530, pair((492, LOWERED), (4_150, LOWERED))),
        ("CH2O", 6_966, pair((722, RAISED), (5_000, EXACT))),
        ("C25H51N", 2_813, pair((30, EXACT), (282, LOWERED))),
        ("C2H3N", 15_959, pair((313, RAISED), (2_417, LOWERED))), // the lower limit is 3.125
    ];
    for (text, t, paper) in figures {
        same(text, limits::fuel_limits_of_text_at(text.as_bytes(), t), paper);
        let mut book = Book::new(1);
        let answer = book.add_text(0, text.as_bytes(), 1_000_000).and_then(|()| book.limits_at(0, t));
        same(text, answer, paper);
    }
}

/// The last fuel's limits are rounded, its mass concentrations at them exact.
fn masses() {
    same("CH4 mass", limits::mass_concentration_of_text(b"CH4", 13_400), pair((1_983, RAISED), (14_841, LOWERED)));
    same("CH3Cl mass", limits::mass_concentration_of_text(b"CH3Cl", 2_000), pair((11_903, LOWERED), (72_322, LOWERED)));
    let heavy = b"C200H12O150N54Cl";
    same("heavy", limits::fuel_limits_of_text_at(heavy, 0), pair((9, LOWERED), (93, RAISED)));
    same("heavy mass", limits::mass_concentration_of_text(heavy, 0), pair((22_500, EXACT), (232_500, EXACT)));
}

fn blends() {
    let full = Blend::EMPTY.add(&counts("CH4"), 1_000_000);
    same("total", full.map(|blend| blend.total), Ok(1_000_000));
    same("one more", full.and_then(|blend| blend.add(&counts("CH4"), 1)), refuse(8, 0));
    for ([first, second], paper) in [
        ([("C3H8", 300_000), ("C2H6", 700_000)], pair((258, RAISED), (1_487, LOWERED))),
        ([("C3H4", 446_418), ("C3H5N", 233_105)], pair((250, EXACT), (1_442, RAISED))),
        ([("CH4", 5_857), ("CH5N", 25_608)], pair((422, RAISED), (2_500, EXACT))),
    ] {
        let blend = Blend::EMPTY.add(&counts(first.0), first.1).and_then(|blend| blend.add(&counts(second.0), second.1));
        same(first.0, blend.and_then(Blend::limits), paper);
        let mut book = Book::new(2);
        let added = book.add(1, &counts(second.0), second.1).and_then(|()| book.add(0, &counts(first.0), first.1));
        same(first.0, added.and_then(|()| book.join(0, 1)).and_then(|()| book.limits(0)), paper);
    }
}

fn points() {
    let mut ethanol = [0; 22];
    (ethanol[0], ethanol[3], ethanol[4], ethanol[17]) = (1, 5, 1, 1);
    for (method, paper) in [(1, rounded(839, LOWERED)), (2, rounded(1_336, RAISED)), (3, rounded(1_891, LOWERED))] {
        same("ethanol", flash::by_bonds(method, &counts("C2H6O"), &ethanol, 7_840), paper);
    }
    same("as alcohol", flash::by_class(2, 7_840), rounded(943, RAISED));
    let mut benzene = [0; 22];
    (benzene[1], benzene[3]) = (6, 6);
    for (boiling, paper) in [(8_010, rounded(-1_540, LOWERED)), (8_005, rounded(-1_544, RAISED))] {
        same("benzene", flash::by_bonds(1, &counts("C6H6"), &benzene, boiling), paper);
    }
    // -69.755, and -0.00455
    for (boiling, paper) in [(0, rounded(-7_322, EXACT)), (500, rounded(-6_976, RAISED)), (10_565, rounded(0, LOWERED))] {
        same("alkane", flash::by_class(1, boiling), paper);
    }
}

fn curves() {
    let (t, p) = ([0, 1_000, 2_000], [1_000, 2_000, 4_000]);
    let limit = |text| curve::lower_temperature_limit(&counts(text), &t, &p);
    same("C2H6 limit", limit("C2H6"), Ok(1_444));
    same("C3H8 limit", limit("C3H8"), Ok(1_054));
    same("CH4 limit", limit("CH4"), refuse(13, 0));
    same("C40H82 limit", limit("C40H82"), refuse(12, 0));
    same("C6H6 by (35)", curve::flash(1, &counts("C6H6"), 800, &t, &p), Ok(669));
}

/// Document 01 prints no figure here; these are its rules on plain numbers.
fn readings() {
    let percent = |limit, reading| parts(Method { limit, ceiling: 90.0 }, Reading::Percent(reading));
    let ppm = |limit, reading| parts(Method { limit, ceiling: 1e6 }, Reading::Ppm(reading));
    same("1.5 %", percent(0.5, 1.5), rounded(15_000, EXACT));
    same("0.25 %", percent(0.5, 0.25), rounded(0, EXACT));
    same("-0.25 %", percent(0.5, -0.25), refuse(14, 1));
    same("4.54 %", percent(0.0, 4.54), rounded(45_400, LOWERED)); // the float lies above 4.54
    same("5e-324 %", percent(0.0, 5e-324), rounded(0, LOWERED));
    same("1/2 ppm", ppm(-0.0, 0.5), rounded(1, RAISED));
    same("1e-300 ppm", ppm(0.0, 1e-300), rounded(0, LOWERED));
    same("0.4 ppm, from 0.4", ppm(0.4, 0.4), rounded(0, LOWERED));
    same("0.3 ppm, from 0.4", ppm(0.4, 0.3), rounded(0, EXACT));
    same("0 ppm", ppm(0.0, 0.0), rounded(0, EXACT));
    same("-0 ppm", ppm(0.0, -0.0), rounded(0, EXACT));
    same("overload", parts(Method { limit: 0.0, ceiling: 1e6 }, Reading::Overload), refuse(14, 1));
    same("ceiling", parts(Method { limit: 0.0, ceiling: 1e7 }, Reading::Overload), refuse(14, 0));
}

fn sheets() {
    same("sheet", sheet::answer(b"formula,parts\r\nC3H8,300000\r\nC2H6,700000\r\n"), pair((258, RAISED), (1_487, LOWERED)));
    let mut room = [0; 43];
    same("its length", sheet::write_answer(Ok((258, 1_487)), &mut room), Ok(43));
    same("its text", Ok(&room[..]), Ok(&b"answer,record,lower,upper\r\n0,0,2.58,14.87\r\n"[..]));
}
