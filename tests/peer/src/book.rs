//! The book of demand 3: a page of entries for each blend, fed with the calls alone; limits by exact fractions as the paper prints them.

use crate::blend::USUAL_TEMPERATURE;
use crate::formula::{read, Atoms};
use crate::limits::{admit, quarters, Pair, LIMITS};
use crate::refusal::{refuse_if, Answer};
use crate::rounding::{rounded_wide, Rounded};

#[derive(Clone, Copy, Debug)]
struct Fraction {
    over: u128,
    under: u128,
}

impl Fraction {
    fn new(over: u128, under: u128) -> Fraction {
        let divisor = gcd(over, under);
        Fraction { over: over / divisor, under: under / divisor }
    }

    fn plus(self, other: Fraction) -> Fraction {
        Fraction::new(self.over * other.under + other.over * self.under, self.under * other.under)
    }

    fn times(self, other: Fraction) -> Fraction {
        Fraction::new(self.over * other.over, self.under * other.under)
    }

    fn by(self, other: Fraction) -> Fraction {
        Fraction::new(self.over * other.under, self.under * other.over)
    }

    fn rounded(self) -> Rounded {
        rounded_wide(self.over, self.under)
    }
}

fn gcd(mut a: u128, mut b: u128) -> u128 {
    while b > 0 {
        (a, b) = (b, a % b);
    }
    a
}

fn whole(number: u64) -> Fraction {
    Fraction { over: u128::from(number), under: 1 }
}

fn thousandths(number: u64) -> Fraction {
    Fraction::new(u128::from(number), 1_000)
}

/// 100/(a beta + b) %, a and b in thousandths.
fn limit(beta: Fraction, a: u64, b: u64) -> Fraction {
    whole(100).by(thousandths(a).times(beta).plus(thousandths(b)))
}

fn lower_limit(beta: Fraction) -> Fraction {
    limit(beta, 8_684, 4_679)
}

fn upper_limit(beta: Fraction) -> Fraction {
    if 2 * beta.over <= 15 * beta.under {
        limit(beta, 1_550, 560)
    } else {
        limit(beta, 768, 6_554)
    }
}

struct Entry {
    fuel: Atoms,
    parts: u64,
}

impl Entry {
    fn beta(&self) -> Fraction {
        Fraction::new(quarters(&self.fuel) as u128, 4)
    }
}

pub struct Book {
    pages: Vec<Vec<Entry>>,
}

impl Book {
    pub fn new(pages: usize) -> Book {
        Book { pages: (0..pages).map(|_| Vec::new()).collect() }
    }

    pub fn total(&self, page: usize) -> u64 {
        self.pages[page].iter().map(|entry| entry.parts).sum()
    }

    pub fn add(&mut self, page: usize, fuel: &Atoms, parts: u64) -> Answer<()> {
        admit(fuel, &LIMITS)?;
        refuse_if(parts > 1_000_000 || self.total(page) + parts > 1_000_000, 8, 0)?;
        self.pages[page].push(Entry { fuel: *fuel, parts });
        Ok(())
    }

    pub fn add_text(&mut self, page: usize, text: &[u8], parts: u64) -> Answer<()> {
        let fuel = read(text)?;
        self.add(page, &fuel, parts)
    }

    pub fn join(&mut self, first: usize, second: usize) -> Answer<()> {
        refuse_if(self.total(first) + self.total(second) > 1_000_000, 8, 0)?;
        let copied: Vec<Entry> = self.pages[second].iter().map(|entry| Entry { fuel: entry.fuel, parts: entry.parts }).collect();
        self.pages[first].extend(copied);
        Ok(())
    }

    pub fn limits_at(&self, page: usize, temperature: i64) -> Answer<Pair> {
        refuse_if(self.total(page) == 0, 9, 0)?;
        refuse_if(!(0..=20_000).contains(&temperature), 10, 0)?;
        let t = Fraction::new(temperature as u128, 100);
        let cooled = Fraction { over: 1_277 * t.under - t.over, under: t.under };
        let lower = self.le_chatelier(page, lower_limit).times(cooled.by(whole(1_252)));
        let upper = self.le_chatelier(page, upper_limit).times(t.plus(whole(787)).by(whole(812)));
        let hundredths = |limit: Fraction| limit.times(whole(100)).rounded();
        Ok(Pair { lower: hundredths(lower), upper: hundredths(upper) })
    }

    pub fn limits(&self, page: usize) -> Answer<Pair> {
        self.limits_at(page, USUAL_TEMPERATURE)
    }

    /// V / sum(v / limit) over the page's entries.
    fn le_chatelier(&self, page: usize, limit: fn(Fraction) -> Fraction) -> Fraction {
        let shares = self.pages[page].iter().map(|entry| whole(entry.parts).by(limit(entry.beta())));
        whole(self.total(page)).by(shares.fold(whole(0), Fraction::plus))
    }
}
