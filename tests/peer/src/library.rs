//! The library's C interface, include/jaloosewin.h and tests/testing.h, and the peer's answers in its structs.

use peer::analyser::{Method, Reading};
use peer::blend::Blend;
use peer::division::Quotient;
use peer::formula::Atoms;
use peer::limits::Pair;
use peer::refusal::{Answer, Refusal};
use peer::rounding::Rounded;

#[repr(C)]
#[derive(Clone, Copy, PartialEq, Eq, Debug)]
pub struct Counts {
    pub count: [u64; 10],
}

#[repr(C)]
#[derive(Clone, Copy, PartialEq, Eq, Debug)]
pub struct BondCounts {
    pub count: [u64; 22],
}

#[repr(C)]
#[derive(Clone, Copy, PartialEq, Eq, Debug)]
pub struct Formula {
    pub refusal: Refusal,
    pub atoms: Counts,
}

/// One number that is not rounded: the oxygen coefficient, or the length of a written text.
#[repr(C)]
#[derive(Clone, Copy, PartialEq, Eq, Debug)]
pub struct Figure {
    pub refusal: Refusal,
    pub value: u64,
}

/// A rounded figure, with u64 `jlw_rounded`, with i64 `jlt_rounded_temperature`.
#[repr(C)]
#[derive(Clone, Copy, PartialEq, Eq, Debug)]
pub struct Marked<T> {
    pub refusal: Refusal,
    pub value: T,
    pub mark: u64,
}

#[repr(C)]
#[derive(Clone, Copy, PartialEq, Eq, Debug)]
pub struct Limits {
    pub refusal: Refusal,
    pub lower: u64,
    pub upper: u64,
    pub lower_mark: u64,
    pub upper_mark: u64,
}

#[repr(C)]
#[derive(Clone, Copy, PartialEq, Eq, Debug)]
pub struct Blended {
    pub refusal: Refusal,
    pub blend: Blend,
}

#[repr(C)]
#[derive(Clone, Copy, PartialEq, Eq, Debug)]
pub struct Temperature {
    pub refusal: Refusal,
    pub value: i64,
}

mod c {
    use super::*;

    extern "C" {
        pub fn jlw_read_formula(text: *const u8, text_len: usize) -> Formula;
        pub fn jlw_write_formula(
            c: u64,
            h: u64,
            o: u64,
            n: u64,
            s: u64,
            p: u64,
            f: u64,
            cl: u64,
            br: u64,
            si: u64,
            out: *mut u8,
            out_len: usize,
        ) -> Figure;
        pub fn jlw_oxygen_coefficient(text: *const u8, text_len: usize) -> Figure;
        pub fn jlw_stoichiometric_fraction(text: *const u8, text_len: usize) -> Marked<u64>;
        pub fn jlw_fuel_limits(text: *const u8, text_len: usize) -> Limits;
        pub fn jlw_fuel_limits_at(text: *const u8, text_len: usize, temperature: i64) -> Limits;
        pub fn jlw_mass_concentration(text: *const u8, text_len: usize, temperature: i64) -> Limits;
        pub fn jlw_empty_blend() -> Blend;
        pub fn jlw_add_fuel(total: u64, lower: u64, upper: u64, text: *const u8, text_len: usize, parts: u64) -> Blended;
        pub fn jlw_join_blends(total: u64, lower: u64, upper: u64, other_total: u64, other_lower: u64, other_upper: u64) -> Blended;
        pub fn jlw_blend_limits(total: u64, lower: u64, upper: u64) -> Limits;
        pub fn jlw_blend_limits_at(total: u64, lower: u64, upper: u64, temperature: i64) -> Limits;
        pub fn jlt_divide(n: u64, d: u64) -> Quotient;
        pub fn jlt_flash_by_bonds(method: u64, atoms: Counts, bonds: BondCounts, boiling: i64) -> Marked<i64>;
        pub fn jlt_flash_by_class(class_number: u64, boiling: i64) -> Marked<i64>;
        pub fn jlt_flash_by_curve(
            method: u64,
            fuel: Counts,
            diffusion: u64,
            t: *const i64,
            t_len: usize,
            p: *const u64,
            p_len: usize,
        ) -> Temperature;
        pub fn jlt_lower_temperature_limit(fuel: Counts, t: *const i64, t_len: usize, p: *const u64, p_len: usize) -> Temperature;
        pub fn jlt_parts_of_percent(limit: f64, ceiling: f64, reading: f64) -> Marked<u64>;
        pub fn jlt_parts_of_ppm(limit: f64, ceiling: f64, reading: f64) -> Marked<u64>;
        pub fn jlt_parts_of_overload(limit: f64, ceiling: f64) -> Marked<u64>;
        pub fn jlt_add_fuel(blend: Blend, fuel: Counts, parts: u64) -> Blended;
        pub fn jlt_fuel_limits_at(fuel: Counts, temperature: i64) -> Limits;
        pub fn jlt_oxygen_coefficient(fuel: Counts) -> Figure;
        pub fn jlt_sheet_answer(sheet: *const u8, sheet_len: usize) -> Limits;
        pub fn jlt_write_sheet_answer(refusal: Refusal, lower: u64, upper: u64, out: *mut u8, out_len: usize) -> Figure;
    }
}

/// An empty slice goes over as NULL.
fn start<T>(items: &[T]) -> *const T {
    if items.is_empty() {
        std::ptr::null()
    } else {
        items.as_ptr()
    }
}

fn start_mut<T>(items: &mut [T]) -> *mut T {
    if items.is_empty() {
        std::ptr::null_mut()
    } else {
        items.as_mut_ptr()
    }
}

pub fn read_formula(text: &[u8]) -> Formula {
    unsafe { c::jlw_read_formula(start(text), text.len()) }
}

pub fn write_formula(atoms: &Atoms, out: &mut [u8]) -> Figure {
    let [c, h, o, n, s, p, f, cl, br, si] = *atoms;
    unsafe { c::jlw_write_formula(c, h, o, n, s, p, f, cl, br, si, start_mut(out), out.len()) }
}

pub fn oxygen_coefficient(text: &[u8]) -> Figure {
    unsafe { c::jlw_oxygen_coefficient(start(text), text.len()) }
}

pub fn stoichiometric_fraction(text: &[u8]) -> Marked<u64> {
    unsafe { c::jlw_stoichiometric_fraction(start(text), text.len()) }
}

pub fn fuel_limits(text: &[u8]) -> Limits {
    unsafe { c::jlw_fuel_limits(start(text), text.len()) }
}

pub fn fuel_limits_at(text: &[u8], temperature: i64) -> Limits {
    unsafe { c::jlw_fuel_limits_at(start(text), text.len(), temperature) }
}

pub fn mass_concentration(text: &[u8], temperature: i64) -> Limits {
    unsafe { c::jlw_mass_concentration(start(text), text.len(), temperature) }
}

pub fn empty_blend() -> Blend {
    unsafe { c::jlw_empty_blend() }
}

pub fn add_fuel(blend: Blend, text: &[u8], parts: u64) -> Blended {
    unsafe { c::jlw_add_fuel(blend.total, blend.lower, blend.upper, start(text), text.len(), parts) }
}

pub fn join_blends(first: Blend, second: Blend) -> Blended {
    unsafe { c::jlw_join_blends(first.total, first.lower, first.upper, second.total, second.lower, second.upper) }
}

pub fn blend_limits(blend: Blend) -> Limits {
    unsafe { c::jlw_blend_limits(blend.total, blend.lower, blend.upper) }
}

pub fn blend_limits_at(blend: Blend, temperature: i64) -> Limits {
    unsafe { c::jlw_blend_limits_at(blend.total, blend.lower, blend.upper, temperature) }
}

pub fn divide(n: u64, d: u64) -> Quotient {
    unsafe { c::jlt_divide(n, d) }
}

pub fn flash_by_bonds(method: u64, atoms: &Atoms, bonds: &[u64; 22], boiling: i64) -> Marked<i64> {
    unsafe { c::jlt_flash_by_bonds(method, Counts { count: *atoms }, BondCounts { count: *bonds }, boiling) }
}

pub fn flash_by_class(class: u64, boiling: i64) -> Marked<i64> {
    unsafe { c::jlt_flash_by_class(class, boiling) }
}

pub fn flash_by_curve(method: u64, fuel: &Atoms, diffusion: u64, t: &[i64], p: &[u64]) -> Temperature {
    unsafe { c::jlt_flash_by_curve(method, Counts { count: *fuel }, diffusion, start(t), t.len(), start(p), p.len()) }
}

pub fn lower_temperature_limit(fuel: &Atoms, t: &[i64], p: &[u64]) -> Temperature {
    unsafe { c::jlt_lower_temperature_limit(Counts { count: *fuel }, start(t), t.len(), start(p), p.len()) }
}

pub fn parts(method: Method, reading: Reading) -> Marked<u64> {
    let Method { limit, ceiling } = method;
    match reading {
        Reading::Percent(value) => unsafe { c::jlt_parts_of_percent(limit, ceiling, value) },
        Reading::Ppm(value) => unsafe { c::jlt_parts_of_ppm(limit, ceiling, value) },
        Reading::Overload => unsafe { c::jlt_parts_of_overload(limit, ceiling) },
    }
}

pub fn add_fuel_by_counts(blend: Blend, fuel: &Atoms, parts: u64) -> Blended {
    unsafe { c::jlt_add_fuel(blend, Counts { count: *fuel }, parts) }
}

pub fn fuel_limits_by_counts(fuel: &Atoms, temperature: i64) -> Limits {
    unsafe { c::jlt_fuel_limits_at(Counts { count: *fuel }, temperature) }
}

pub fn oxygen_coefficient_by_counts(fuel: &Atoms) -> Figure {
    unsafe { c::jlt_oxygen_coefficient(Counts { count: *fuel }) }
}

pub fn sheet_answer(sheet: &[u8]) -> Limits {
    unsafe { c::jlt_sheet_answer(start(sheet), sheet.len()) }
}

pub fn write_sheet_answer(refusal: Refusal, lower: u64, upper: u64, out: &mut [u8]) -> Figure {
    unsafe { c::jlt_write_sheet_answer(refusal, lower, upper, start_mut(out), out.len()) }
}

/// The marks of an answer, each with the name of its figure.
pub type Marks = [Option<(&'static str, u64)>; 2];

/// An answer of either side.
pub trait Shown: PartialEq + std::fmt::Debug {
    fn refusal(&self) -> Refusal;

    fn marks(&self) -> Marks {
        [None; 2]
    }
}

macro_rules! shown {
    ($($name:ty),*) => {
        $(impl Shown for $name {
            fn refusal(&self) -> Refusal {
                self.refusal
            }
        })*
    };
}

shown!(Formula, Figure, Blended, Temperature);

/// A figure of 0 has a name of its own: it is never raised.
impl Shown for Marked<u64> {
    fn refusal(&self) -> Refusal {
        self.refusal
    }

    fn marks(&self) -> Marks {
        [Some((if self.value == 0 { "0" } else { "above 0" }, self.mark)), None]
    }
}

/// A figure below 0 has a name of its own: its mark is by size.
impl Shown for Marked<i64> {
    fn refusal(&self) -> Refusal {
        self.refusal
    }

    fn marks(&self) -> Marks {
        [Some((if self.value < 0 { "below 0" } else { "from 0" }, self.mark)), None]
    }
}

impl Shown for Limits {
    fn refusal(&self) -> Refusal {
        self.refusal
    }

    fn marks(&self) -> Marks {
        [Some(("lower", self.lower_mark)), Some(("upper", self.upper_mark))]
    }
}

/// A division refuses nothing.
impl Shown for Quotient {
    fn refusal(&self) -> Refusal {
        ANSWERED
    }
}

pub const ANSWERED: Refusal = Refusal { number: 0, place: 0 };

fn split<T>(answer: Answer<T>, zero: T) -> (Refusal, T) {
    match answer {
        Ok(value) => (ANSWERED, value),
        Err(refusal) => (refusal, zero),
    }
}

pub fn formula_of(answer: Answer<Atoms>) -> Formula {
    let (refusal, count) = split(answer, [0; 10]);
    Formula { refusal, atoms: Counts { count } }
}

pub fn figure_of(answer: Answer<u64>) -> Figure {
    let (refusal, value) = split(answer, 0);
    Figure { refusal, value }
}

pub fn marked_of<T: Default>(answer: Answer<Rounded<T>>) -> Marked<T> {
    let (refusal, Rounded { value, mark }) = split(answer, Rounded::default());
    Marked { refusal, value, mark }
}

pub fn limits_of(answer: Answer<Pair>) -> Limits {
    let (refusal, Pair { lower, upper }) = split(answer, Pair::default());
    Limits { refusal, lower: lower.value, upper: upper.value, lower_mark: lower.mark, upper_mark: upper.mark }
}

/// With a refusal the blend comes back as given.
pub fn blended_of(answer: Answer<Blend>, given: Blend) -> Blended {
    let (refusal, blend) = split(answer, given);
    Blended { refusal, blend }
}

pub fn temperature_of(answer: Answer<i64>) -> Temperature {
    let (refusal, value) = split(answer, 0);
    Temperature { refusal, value }
}
