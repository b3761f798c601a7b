//! Formula text: reading with the place rule, and writing in the Hill system.

use crate::refusal::{refuse, refuse_if, Answer};

/// Counts of C H O N S P F Cl Br Si.
pub type Atoms = [u64; 10];

pub const MOST_BYTES: usize = 256;
pub const MOST_ATOMS: u64 = 200;
pub const DEPTH: usize = 8;

pub const SYMBOLS: [&str; 10] = ["C", "H", "O", "N", "S", "P", "F", "Cl", "Br", "Si"];

/// Elements less one, by symbol; carbon and hydrogen come first where carbon is present.
const BY_SYMBOL: [usize; 10] = [8, 0, 7, 6, 1, 3, 2, 5, 4, 9];
const CARBON_FIRST: [usize; 10] = [0, 1, 8, 7, 6, 3, 2, 5, 4, 9];

/// The longest Hill text is C200H200Br200Cl200F200N200O200P200S200Si200.
const LONGEST: usize = 43;

pub fn read(text: &[u8]) -> Answer<Atoms> {
    refuse_if(text.len() > MOST_BYTES, 1, MOST_BYTES as u64)?;
    let mut open = [[0; 10]; DEPTH + 1]; // totals of the formulas begun, the outermost first
    let mut depth = 0;
    let mut bare = true; // the innermost formula has no item yet
    let mut at = 0;
    while at < text.len() {
        match text[at] {
            b'(' if depth < DEPTH => {
                depth += 1;
                open[depth] = [0; 10];
                bare = true;
                at += 1;
            }
            b')' if depth > 0 && !bare => {
                let (times, next) = count(text, at + 1);
                depth -= 1;
                add_group(&mut open, depth, times);
                at = next;
            }
            _ => {
                let (element, next) = element(text, at)?;
                let (times, next) = count(text, next);
                open[depth][element] = open[depth][element].saturating_add(times);
                bare = false;
                at = next;
            }
        }
    }
    refuse_if(depth > 0 || bare, 1, text.len() as u64)?;
    within_most(&open[0])?;
    Ok(open[0])
}

/// Totals saturate: a count never lowers one, so whether it exceeds 200 stays true.
fn add_group(open: &mut [Atoms; DEPTH + 1], depth: usize, times: u64) {
    let (outer, inner) = open.split_at_mut(depth + 1);
    for (total, group) in outer[depth].iter_mut().zip(inner[0]) {
        *total = total.saturating_add(group.saturating_mul(times));
    }
}

/// The element at a place and the place after it; else refusal 1 after the bytes that still begin an element.
fn element(text: &[u8], at: usize) -> Answer<(usize, usize)> {
    let second = text.get(at + 1).copied().unwrap_or(0);
    let (element, length) = match text[at] {
        b'C' if second == b'l' => (7, 2),
        b'C' => (0, 1),
        b'H' => (1, 1),
        b'O' => (2, 1),
        b'N' => (3, 1),
        b'S' if second == b'i' => (9, 2),
        b'S' => (4, 1),
        b'P' => (5, 1),
        b'F' => (6, 1),
        b'B' if second == b'r' => (8, 2),
        b'B' => return refuse(1, at as u64 + 1),
        _ => return refuse(1, at as u64),
    };
    Ok((element, at + length))
}

/// The optional count at a place, at most three digits, and the place after it.
fn count(text: &[u8], at: usize) -> (u64, usize) {
    if text.get(at) == Some(&b'0') {
        return (1, at);
    }
    let digits = text[at..].iter().take(3).take_while(|byte| byte.is_ascii_digit());
    let (value, length) = digits.fold((0, 0), |(value, length), byte| (value * 10 + u64::from(byte - b'0'), length + 1));
    (value.max(1), at + length)
}

/// Refusal 2 at the lowest element above 200.
pub fn within_most(atoms: &Atoms) -> Answer<()> {
    match atoms.iter().position(|&count| count > MOST_ATOMS) {
        Some(element) => refuse(2, element as u64 + 1),
        None => Ok(()),
    }
}

/// Writes the Hill text at the start of `out` and answers its length; a refusal writes nothing.
pub fn write(atoms: &Atoms, out: &mut [u8]) -> Answer<usize> {
    refuse_if(atoms.iter().all(|&count| count == 0), 1, 0)?;
    within_most(atoms)?;
    let mut line = [0; LONGEST];
    let length = hill(atoms, &mut line);
    refuse_if(length > out.len(), 17, 0)?;
    out[..length].copy_from_slice(&line[..length]);
    Ok(length)
}

fn hill(atoms: &Atoms, line: &mut [u8; LONGEST]) -> usize {
    let order = if atoms[0] > 0 { CARBON_FIRST } else { BY_SYMBOL };
    let mut at = 0;
    let mut push = |byte| {
        line[at] = byte;
        at += 1;
    };
    for element in order.into_iter().filter(|&element| atoms[element] > 0) {
        SYMBOLS[element].bytes().for_each(&mut push);
        let count = atoms[element];
        if count > 99 {
            push(b'0' + (count / 100) as u8);
        }
        if count > 9 {
            push(b'0' + (count / 10 % 10) as u8);
        }
        if count > 1 {
            push(b'0' + (count % 10) as u8);
        }
    }
    at
}
