//! How much a direction may carry. A session keeps its own copy, so that a test can lower it.

#[derive(Clone, Copy, Debug, PartialEq, Eq)]
pub struct Limits {
    /// In one lot.
    pub documents: u64,
    /// Accepted lots in one direction.
    pub lots: usize,
}

impl Limits {
    pub const PAPER: Limits = Limits {
        documents: 2_600,
        lots: 64,
    };
}

/// Represented entities of one centre.
pub const REPRESENTED: usize = 8;
/// Entity codes, centres and order numbers have four digits.
pub const LAST_FOUR_DIGITS: u16 = 9_999;
pub const LAST_SERIAL: u32 = 99_999_999;
/// Documents in one detail.
pub const DETAIL_DOCUMENTS: usize = 200;
