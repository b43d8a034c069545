//! What a detail check gives.

/// The answer of a detail check; the totals are 0 unless the code is 0.
#[repr(C)]
#[derive(Clone, Copy, Debug, PartialEq, Eq)]
pub struct Checked {
    pub code: u8,
    pub documents: u64,
    pub nominal: u64,
    pub commission: u64,
}

impl Checked {
    pub const fn refused(code: u8) -> Checked {
        Checked {
            code,
            documents: 0,
            nominal: 0,
            commission: 0,
        }
    }
}
