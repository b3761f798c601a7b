//! A second oracle for short texts: all formulas over a few bytes, made from the grammar, and the longest beginning looked up among theirs.

use std::collections::HashSet;

/// The bytes of the texts tried.
pub const ALPHABET: [u8; 8] = *b"ClBr()10";
/// Texts up to this length are judged.
pub const LONGEST: usize = 4;
/// A text of four bytes is completed, if at all, by an element and four brackets.
const COMPLETED: usize = 2 * LONGEST + 1;

const ELEMENTS: [&str; 3] = ["C", "Cl", "Br"];
const COUNTS: [&str; 8] = ["", "1", "10", "11", "100", "101", "110", "111"];

pub struct Formulas {
    whole: HashSet<Vec<u8>>,
    beginnings: HashSet<Vec<u8>>,
}

impl Formulas {
    pub fn new() -> Formulas {
        let mut items: Vec<Vec<Vec<u8>>> = vec![Vec::new(); COMPLETED + 1];
        let mut formulas = items.clone();
        for length in 1..=COMPLETED {
            items[length] = items_of(length, &formulas);
            formulas[length] = formulas_of(length, &items, &formulas);
        }
        let all = || formulas.iter().flatten();
        Formulas {
            whole: all().filter(|text| text.len() <= LONGEST).cloned().collect(),
            beginnings: all().flat_map(|text| (0..=LONGEST.min(text.len())).map(|end| text[..end].to_vec())).collect(),
        }
    }

    /// The place of refusal 1, or nothing for a formula.
    pub fn place(&self, text: &[u8]) -> Option<u64> {
        if self.whole.contains(text) {
            return None;
        }
        (0..=text.len()).rev().find(|&end| self.beginnings.contains(&text[..end])).map(|end| end as u64)
    }
}

impl Default for Formulas {
    fn default() -> Formulas {
        Formulas::new()
    }
}

/// An element or a group, with an optional count.
fn items_of(length: usize, formulas: &[Vec<Vec<u8>>]) -> Vec<Vec<u8>> {
    let mut found = Vec::new();
    for count in COUNTS.iter().filter(|count| count.len() < length) {
        let core = length - count.len();
        let elements = ELEMENTS.iter().filter(|symbol| symbol.len() == core).map(|symbol| symbol.as_bytes().to_vec());
        let groups = formulas[core.saturating_sub(2)].iter().map(|inner| [b"(", &inner[..], b")"].concat());
        found.extend(elements.chain(groups).map(|text| [&text[..], count.as_bytes()].concat()));
    }
    found
}

/// One or more items.
fn formulas_of(length: usize, items: &[Vec<Vec<u8>>], formulas: &[Vec<Vec<u8>>]) -> Vec<Vec<u8>> {
    let mut found: HashSet<Vec<u8>> = items[length].iter().cloned().collect();
    for first in 1..length {
        for item in &items[first] {
            found.extend(formulas[length - first].iter().map(|rest| [&item[..], rest].concat()));
        }
    }
    found.into_iter().collect()
}

/// Every text over the alphabet up to the judged length.
pub fn texts() -> Vec<Vec<u8>> {
    let mut all = vec![Vec::new()];
    let mut last = all.clone();
    for _ in 0..LONGEST {
        last = last.iter().flat_map(|text| ALPHABET.iter().map(move |byte| [&text[..], &[*byte]].concat())).collect();
        all.extend(last.iter().cloned());
    }
    all
}
