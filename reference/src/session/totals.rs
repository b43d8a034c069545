//! The three counters of documents, and those of a whole direction.

use crate::Checked;
use std::ops::AddAssign;

#[derive(Clone, Copy, Debug, Default, PartialEq, Eq)]
pub struct Totals {
    pub documents: u64,
    pub nominal: u64,
    pub commission: u64,
}

impl AddAssign for Totals {
    fn add_assign(&mut self, other: Totals) {
        self.documents += other.documents;
        self.nominal += other.nominal;
        self.commission += other.commission;
    }
}

impl From<Checked> for Totals {
    fn from(checked: Checked) -> Totals {
        Totals {
            documents: checked.documents,
            nominal: checked.nominal,
            commission: checked.commission,
        }
    }
}

#[derive(Clone, Copy, Debug, Default, PartialEq, Eq)]
pub struct SessionTotals {
    pub lots: u64,
    pub totals: Totals,
}
