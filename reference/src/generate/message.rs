//! Whole messages and replies by the paper's layouts.

use crate::bodies::Document;
use crate::packed;

/// Documents, nominal and commission of a lot.
pub type Totals = [u64; 3];

/// Who talks to whom on which day.
#[derive(Clone, Copy)]
pub struct Pair {
    pub date: u64,
    pub presenting: u16,
    pub receiving: u16,
}

/// A number in a field of so many bytes.
pub fn packed(value: u64, length: usize) -> Vec<u8> {
    let mut field = vec![0; length];
    packed::write(value, &mut field);
    field
}

fn envelope(kind: u8, pair: Pair, serial: u64) -> Vec<u8> {
    [
        vec![kind],
        packed(pair.date, 3),
        packed(pair.presenting.into(), 2),
        packed(pair.receiving.into(), 2),
        packed(serial, 4),
    ]
    .concat()
}

pub fn message(pair: Pair, serial: u64, body: &[u8]) -> Vec<u8> {
    [envelope(1, pair, serial), body.to_vec()].concat()
}

/// The operation and the code as they stand in the bytes.
pub fn reply(pair: Pair, serial: u64, operation: u8, code: u8) -> Vec<u8> {
    [envelope(2, pair, serial), vec![0, 0x51, operation, code]].concat()
}

pub fn header(pair: Pair, time: u64, centre: u64, number: u64) -> Vec<u8> {
    [
        vec![0, 0x51, 0x01],
        packed(time, 4),
        packed(pair.date, 3),
        packed(pair.presenting.into(), 2),
        packed(pair.receiving.into(), 2),
        packed(centre, 2),
        packed(number, 2),
        vec![0],
    ]
    .concat()
}

pub fn lot_total(number: u64, totals: Totals) -> Vec<u8> {
    [
        vec![0, 0x51, 0x80],
        packed(number, 2),
        packed(totals[0], 3),
        packed(totals[1], 8),
        packed(totals[2], 6),
    ]
    .concat()
}

pub fn session_total(lots: u64, totals: Totals) -> Vec<u8> {
    [
        vec![0, 0x51, 0x90],
        packed(lots, 2),
        packed(totals[0], 4),
        packed(totals[1], 9),
        packed(totals[2], 7),
    ]
    .concat()
}

pub fn totals(documents: &[Document]) -> Totals {
    let sum = |first: usize, last: usize| {
        let amounts = documents
            .iter()
            .map(|document| packed::value(&document[first..last]));
        amounts.sum()
    };
    [documents.len() as u64, sum(25, 31), sum(43, 47)]
}
