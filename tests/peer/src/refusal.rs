//! Refusals.

/// A refusal number of document 01 and its place.
#[repr(C)]
#[derive(Clone, Copy, PartialEq, Eq, Debug)]
pub struct Refusal {
    pub number: u64,
    pub place: u64,
}

pub type Answer<T> = Result<T, Refusal>;

pub fn refuse<T>(number: u64, place: u64) -> Answer<T> {
    Err(Refusal { number, place })
}

pub fn refuse_if(condition: bool, number: u64, place: u64) -> Answer<()> {
    if condition {
        return refuse(number, place);
    }
    Ok(())
}
