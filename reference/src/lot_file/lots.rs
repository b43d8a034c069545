//! The lots of a file, read from its slice and written back into it.

use super::table::{used_rows, Row, TABLE};
use crate::session::detail::DOCUMENT;
use crate::session::limits::{Limits, LAST_FOUR_DIGITS};

pub const LAST_NUMBER: u32 = LAST_FOUR_DIGITS as u32;
pub const MOST_DOCUMENTS: u64 = Limits::PAPER.documents;

#[derive(Clone, Debug, PartialEq, Eq)]
pub struct Lot {
    pub number: u32,
    pub body: Vec<u8>,
}

impl Lot {
    pub fn documents(&self) -> usize {
        self.body.len() / DOCUMENT
    }
}

pub fn is_order_number(number: u32) -> bool {
    (1..=LAST_NUMBER).contains(&number)
}

/// So many documents a lot may have.
pub fn is_count(documents: u64) -> bool {
    (1..=MOST_DOCUMENTS).contains(&documents)
}

/// Whole documents, and as many as a lot may have.
pub fn is_body(bytes: &[u8]) -> bool {
    bytes.len().is_multiple_of(DOCUMENT) && is_count((bytes.len() / DOCUMENT) as u64)
}

/// In the order of their rows; None for a slice that breaks the rules.
pub fn read(file: &[u8]) -> Option<Vec<Lot>> {
    let mut lots: Vec<Lot> = Vec::new();
    let mut start = TABLE;
    for row in used_rows(file)? {
        let good = is_order_number(row.number)
            && place(&lots, row.number).is_none()
            && row.start as usize == start
            && is_count(row.documents.into());
        if !good {
            return None;
        }
        let end = start + DOCUMENT * row.documents as usize;
        let (number, body) = (row.number, file.get(start..end)?.to_vec());
        lots.push(Lot { number, body });
        start = end;
    }
    Some(lots)
}

/// That of the lot with this order number.
pub fn place(lots: &[Lot], number: u32) -> Option<usize> {
    lots.iter().position(|lot| lot.number == number)
}

/// Where the last body ends; the next one starts here.
pub fn end(lots: &[Lot]) -> usize {
    let bodies = lots.iter().map(|lot| lot.body.len());
    TABLE + bodies.sum::<usize>()
}

/// The file has room for the lots. Bytes past the last body keep their values.
pub fn write(lots: &[Lot], file: &mut [u8]) {
    let (table, bodies) = file.split_at_mut(TABLE);
    table.fill(0);
    let (rows, _) = table.as_chunks_mut();
    for (at, lot) in lots.iter().enumerate() {
        let start = end(&lots[..at]);
        let row = Row {
            number: lot.number,
            start: start as u32,
            documents: lot.documents() as u32,
        };
        row.write(&mut rows[at]);
        bodies[start - TABLE..][..lot.body.len()].copy_from_slice(&lot.body);
    }
}
