//! A tray of presented documents that gets the commissions of all of them.

use super::commission::by_key;
use super::keys::{self, Key};
use crate::packed;
use crate::session::detail::DOCUMENT;
use std::ops::RangeInclusive;

/// In a document's own bytes, of which the first is the paper's position 5.
pub const NOMINAL: RangeInclusive<usize> = 30 - 5..=35 - 5;
pub const TARIFF_KEY: RangeInclusive<usize> = 46 - 5..=47 - 5;
pub const COMMISSION: RangeInclusive<usize> = 48 - 5..=51 - 5;

#[repr(C)]
#[derive(Clone, Copy, Debug, PartialEq, Eq)]
pub struct Filled {
    pub code: u8,
    /// How many there are; beside a document's code its place, counted from 0; else 0.
    pub documents: u64,
}

/// A code other than 0 leaves every byte as it was.
pub fn fill_commissions(tariff: &[u32], tray: &mut [u8]) -> Filled {
    let refused = |code| Filled { code, documents: 0 };
    let Some(keys) = keys::read(tariff) else {
        return refused(42);
    };
    if !tray.len().is_multiple_of(DOCUMENT) {
        return refused(25);
    }
    let (code, commissions) = worked_out(&keys, tray);
    if code == 0 {
        write(&commissions, tray);
    }
    Filled {
        code,
        documents: commissions.len() as u64,
    }
}

/// Of all documents before the first that earns a code, and that code.
fn worked_out(keys: &[Key], tray: &[u8]) -> (u8, Vec<u64>) {
    let mut commissions = Vec::new();
    for document in tray.chunks_exact(DOCUMENT) {
        match of_document(keys, document) {
            Ok(commission) => commissions.push(commission),
            Err(code) => return (code, commissions),
        }
    }
    (0, commissions)
}

/// Or its code, the first that applies.
fn of_document(keys: &[Key], document: &[u8]) -> Result<u64, u8> {
    let key = packed::read(&document[TARIFF_KEY]).ok_or(1)?;
    let nominal = packed::read(&document[NOMINAL]).ok_or(3)?;
    let typed = packed::read(&document[COMMISSION]).ok_or(3)?;
    by_key(keys, key as u32, nominal, typed).ok_or(41)
}

/// With key 0 the commission is the typed one, so that its bytes stay.
fn write(commissions: &[u64], tray: &mut [u8]) {
    let documents = tray.chunks_exact_mut(DOCUMENT);
    for (document, &commission) in documents.zip(commissions) {
        packed::write(commission, &mut document[COMMISSION]);
    }
}
