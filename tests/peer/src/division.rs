//! Quotient and remainder as the processor divides. By 0 the quotient is 0 and the remainder n.

#[repr(C)]
#[derive(Clone, Copy, PartialEq, Eq, Debug)]
pub struct Quotient {
    pub quotient: u64,
    pub remainder: u64,
}

pub fn divide(n: u64, d: u64) -> Quotient {
    if d == 0 {
        return Quotient { quotient: 0, remainder: n };
    }
    Quotient { quotient: n / d, remainder: n % d }
}
