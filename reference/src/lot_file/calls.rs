//! What can be done with a lot file. A code other than 0 leaves every byte as it was.

use super::lots::{self, is_body, is_order_number, place, Lot};
use super::table::ROWS;

/// Both numbers are 0 unless the code is 0.
#[repr(C)]
#[derive(Clone, Copy, Debug, PartialEq, Eq)]
pub struct Found {
    pub code: u8,
    /// Of the body, counted from the slice's first byte.
    pub start: u64,
    pub documents: u64,
}

impl Found {
    pub const fn refused(code: u8) -> Found {
        Found {
            code,
            start: 0,
            documents: 0,
        }
    }
}

/// 25 for a slice that breaks the rules, else 0.
pub fn check(file: &[u8]) -> u8 {
    match lots::read(file) {
        None => 25,
        Some(_) => 0,
    }
}

/// The lot becomes the last one; 25, 04 or 45.
pub fn add(file: &mut [u8], number: u32, tray: &[u8]) -> u8 {
    put(with(file, number, tray), file)
}

/// Later ones move down; 25 or 46.
pub fn take_out(file: &mut [u8], number: u32) -> u8 {
    put(without(file, number), file)
}

/// 25 or 46.
pub fn find(file: &[u8], number: u32) -> Found {
    match found(file, number) {
        Err(code) => Found::refused(code),
        Ok((lots, at)) => Found {
            code: 0,
            start: lots::end(&lots[..at]) as u64,
            documents: lots[at].documents() as u64,
        },
    }
}

/// Gives the code beside which nothing is written.
fn put(lots: Result<Vec<Lot>, u8>, file: &mut [u8]) -> u8 {
    match lots {
        Err(code) => code,
        Ok(lots) => {
            lots::write(&lots, file);
            0
        }
    }
}

/// The lots of the file and one more.
fn with(file: &[u8], number: u32, tray: &[u8]) -> Result<Vec<Lot>, u8> {
    let mut lots = lots::read(file).ok_or(25)?;
    if !is_order_number(number) || !is_body(tray) {
        return Err(25);
    }
    if place(&lots, number).is_some() {
        return Err(4);
    }
    let room = file.len() - lots::end(&lots);
    if lots.len() == ROWS || room < tray.len() {
        return Err(45);
    }
    let body = tray.to_vec();
    lots.push(Lot { number, body });
    Ok(lots)
}

/// The lots of the file but this one.
fn without(file: &[u8], number: u32) -> Result<Vec<Lot>, u8> {
    let (mut lots, at) = found(file, number)?;
    lots.remove(at);
    Ok(lots)
}

/// The lots of the file, and where this one stands among them.
fn found(file: &[u8], number: u32) -> Result<(Vec<Lot>, usize), u8> {
    let lots = lots::read(file).ok_or(25)?;
    if !is_order_number(number) {
        return Err(25);
    }
    let at = place(&lots, number).ok_or(46)?;
    Ok((lots, at))
}
