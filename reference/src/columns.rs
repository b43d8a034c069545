//! The detail check by columns: a column is a byte's place in all documents, and its least and
//! greatest byte judge most fields. The loops over the columns become vector instructions.

use crate::frame::{self, wrong, Amounts, Document, Found, GROUP, STRETCH};
use crate::session::rules::Rules;
use crate::Checked;
use std::array;

/// The columns that are looked at; the last is a key byte that only makes the number even.
const COLUMNS: usize = 48;

/// The bits of a nominal in its word.
const NOMINAL: u64 = 0x00FF_FFFF_FFFF_FF00;

/// By today's rules.
pub fn check(body: &[u8], own: u16, represented: &[u16]) -> Checked {
    check_by(Rules::TODAY, body, own, represented)
}

pub fn check_by(rules: Rules, body: &[u8], own: u16, represented: &[u16]) -> Checked {
    frame::check(rules, body, own, represented, pass::<false>, pass::<true>)
}

fn pass<const RETURNS: bool>(body: &[u8], own: [u8; 2]) -> Found {
    let (full, rest) = body.as_chunks::<GROUP>();
    let mut columns = Columns::nothing();
    for stretch in full.chunks(STRETCH) {
        for group in stretch {
            let documents = group.as_rchunks().1.try_into().unwrap();
            columns.take::<RETURNS, 4>(documents);
        }
        columns.settle();
    }
    for document in rest.as_rchunks().1 {
        columns.take::<RETURNS, 1>(array::from_ref(document));
    }
    columns.settle();
    columns.found::<RETURNS>(own)
}

/// What is kept of the documents taken so far, the sums of the low digits only since the last
/// settling. The first 16 columns need no least and no sum.
struct Columns {
    least: [u8; COLUMNS],
    greatest: [u8; COLUMNS],
    greatest_low: [u8; COLUMNS],
    low_sum: [u8; COLUMNS],
    amounts: Amounts,
    /// The highest bit tells that from some nominal 1 could not be taken.
    less_one: u64,
    wrong: u32,
}

impl Columns {
    #[inline(always)]
    fn nothing() -> Columns {
        Columns {
            least: [0xFF; COLUMNS],
            greatest: [0; COLUMNS],
            greatest_low: [0; COLUMNS],
            low_sum: [0; COLUMNS],
            amounts: Amounts::default(),
            less_one: 0,
            wrong: 0,
        }
    }

    #[inline(always)]
    fn take<const RETURNS: bool, const N: usize>(&mut self, documents: &[Document; N]) {
        for document in documents {
            self.wrong |= wrong::<RETURNS>(document);
        }
        for at in 0..16 {
            for document in documents {
                self.greatest[at] = self.greatest[at].max(document[at]);
                self.greatest_low[at] = self.greatest_low[at].max(document[at] & 15);
            }
        }
        for at in 16..COLUMNS {
            for document in documents {
                self.least[at] = self.least[at].min(document[at]);
                self.greatest[at] = self.greatest[at].max(document[at]);
                self.greatest_low[at] = self.greatest_low[at].max(document[at] & 15);
                self.low_sum[at] = self.low_sum[at].wrapping_add(document[at] & 15);
            }
        }
        for document in documents {
            let words = Amounts::words(document);
            self.amounts.add(words);
            self.less_one |= (words[0] & NOMINAL).wrapping_sub(1);
        }
    }

    #[inline(always)]
    fn settle(&mut self) {
        self.amounts.settle(Amounts::words(&self.low_sum));
        self.low_sum = [0; COLUMNS];
    }

    #[inline(always)]
    fn found<const RETURNS: bool>(&self, own: [u8; 2]) -> Found {
        let bad: [bool; COLUMNS] =
            array::from_fn(|at| (self.greatest[at] > 0x99) | (self.greatest_low[at] > 9));
        let digits = |first: usize, end: usize| !bad[first..end].contains(&true);
        Found {
            fields_hold: self.wrong == 0
                && digits(0, 25)
                && digits(31, 43)
                && self.within(17, 0x01, 0x52)
                && self.are(18, own)
                && self.within(20, 0x01, 0x52)
                && self.within(40, 0x01, 0x02)
                && (!RETURNS || self.greatest[41] == 0),
            amounts_are_digits: digits(25, 31) && digits(43, 47),
            all_drawn_on_own: self.are(31, own),
            a_nominal_is_zero: self.less_one >> 63 != 0,
            nominal: self.amounts.nominal(),
            commission: self.amounts.commission(),
        }
    }

    #[inline(always)]
    fn within(&self, at: usize, first: u8, last: u8) -> bool {
        first <= self.least[at] && self.greatest[at] <= last
    }

    #[inline(always)]
    fn are(&self, at: usize, entity: [u8; 2]) -> bool {
        self.within(at, entity[0], entity[0]) && self.within(at + 1, entity[1], entity[1])
    }
}
