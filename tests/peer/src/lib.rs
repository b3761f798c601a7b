//! An independent reading of document 01 and the change requests: every figure of the bench calculator, written from the papers.
//! Temperatures are hundredths of a degree, limits hundredths of a volume percent, pressures Pa.

pub mod analyser;
pub mod blend;
pub mod book;
pub mod curve;
pub mod division;
pub mod flash;
pub mod formula;
pub mod grammar;
pub mod limits;
pub mod refusal;
pub mod rounding;
pub mod scan;
pub mod sheet;
