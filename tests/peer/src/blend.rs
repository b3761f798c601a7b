//! Blends (document 01's pools) as three numbers: total parts, and the sums of parts times (a beta + b), lower in thousandths, upper in two-thousandths.

use crate::formula::{read, Atoms};
use crate::limits::{admit, Pair, LIMITS};
use crate::refusal::{refuse_if, Answer};
use crate::rounding::rounded;

pub const MOST_PARTS: u64 = 1_000_000;
/// 20 degrees, the hall's: meant where no temperature is named.
pub const USUAL_TEMPERATURE: i64 = 2_000;

/// The extremes of admitted fuels, in the units of the sums.
const LOWER: (u64, u64) = (9_021, 2_175_679);
const UPPER: (u64, u64) = (2 * 1_335, 2 * 198_554);

#[repr(C)]
#[derive(Clone, Copy, PartialEq, Eq, Debug)]
pub struct Blend {
    pub total: u64,
    pub lower: u64,
    pub upper: u64,
}

impl Blend {
    pub const EMPTY: Blend = Blend { total: 0, lower: 0, upper: 0 };

    pub fn in_bounds(&self) -> bool {
        let within = |sum, (least, most)| self.total * least <= sum && sum <= self.total * most;
        self.total <= MOST_PARTS && within(self.lower, LOWER) && within(self.upper, UPPER)
    }

    pub fn add(self, fuel: &Atoms, parts: u64) -> Answer<Blend> {
        refuse_if(!self.in_bounds(), 28, 0)?;
        let quarters = admit(fuel, &LIMITS)?;
        refuse_if(parts > MOST_PARTS - self.total, 8, 0)?;
        Ok(Blend {
            total: self.total + parts,
            lower: self.lower + parts * lower_term(quarters),
            upper: self.upper + parts * upper_term(quarters),
        })
    }

    pub fn add_text(self, text: &[u8], parts: u64) -> Answer<Blend> {
        refuse_if(!self.in_bounds(), 28, 0)?;
        self.add(&read(text)?, parts)
    }

    pub fn join(self, other: Blend) -> Answer<Blend> {
        refuse_if(!self.in_bounds(), 28, 0)?;
        refuse_if(!other.in_bounds(), 28, 1)?;
        let total = self.total + other.total;
        refuse_if(total > MOST_PARTS, 8, 0)?;
        Ok(Blend { total, lower: self.lower + other.lower, upper: self.upper + other.upper })
    }

    /// V / sum(v / limit), the lower times (1277 - t)/1252, the upper times (t + 787)/812.
    pub fn limits_at(self, temperature: i64) -> Answer<Pair> {
        refuse_if(!self.in_bounds(), 28, 0)?;
        refuse_if(self.total == 0, 9, 0)?;
        refuse_if(!(0..=20_000).contains(&temperature), 10, 0)?;
        let t = temperature as u64;
        Ok(Pair {
            lower: rounded(10_000 * 1_000 * self.total * (127_700 - t), self.lower * 125_200),
            upper: rounded(10_000 * 2_000 * self.total * (t + 78_700), self.upper * 81_200),
        })
    }

    pub fn limits(self) -> Answer<Pair> {
        self.limits_at(USUAL_TEMPERATURE)
    }
}

/// 8.684 beta + 4.679 in thousandths.
fn lower_term(quarters: u64) -> u64 {
    8_684 / 4 * quarters + 4_679
}

/// 1.550 beta + 0.560, above beta 7.5 0.768 beta + 6.554, in two-thousandths.
fn upper_term(quarters: u64) -> u64 {
    if quarters <= 30 {
        1_550 / 2 * quarters + 2 * 560
    } else {
        768 / 2 * quarters + 2 * 6_554
    }
}
