//! The bodies of the lot total and the session total.

use super::course::Lot;
use super::refusal::{refuse, Refusal};
use super::totals::{SessionTotals, Totals};
use crate::packed;

pub const LOT_LENGTH: usize = 22;
pub const SESSION_LENGTH: usize = 25;

/// Fails with code 01 or 03. Any order number is read.
pub fn read_lot(body: &[u8]) -> Result<Lot, Refusal> {
    refuse(1, body.len() != LOT_LENGTH || !begins(body, 0x80))?;
    let number = packed::read(&body[3..5]).ok_or(1)?;
    let documents = packed::read(&body[5..8]).ok_or(1)?;
    let nominal = packed::read(&body[8..16]).ok_or(3)?;
    let commission = packed::read(&body[16..22]).ok_or(3)?;
    Ok(Lot {
        number: number as u16,
        totals: Totals {
            documents,
            nominal,
            commission,
        },
    })
}

pub fn write_lot(lot: &Lot, body: &mut [u8]) {
    body[..3].copy_from_slice(&[0x00, 0x51, 0x80]);
    packed::write(lot.number.into(), &mut body[3..5]);
    packed::write(lot.totals.documents, &mut body[5..8]);
    packed::write(lot.totals.nominal, &mut body[8..16]);
    packed::write(lot.totals.commission, &mut body[16..22]);
}

/// Fails with code 01 or 03.
pub fn read_session(body: &[u8]) -> Result<SessionTotals, Refusal> {
    refuse(1, body.len() != SESSION_LENGTH || !begins(body, 0x90))?;
    let lots = packed::read(&body[3..5]).ok_or(1)?;
    let documents = packed::read(&body[5..9]).ok_or(1)?;
    let nominal = packed::read(&body[9..18]).ok_or(3)?;
    let commission = packed::read(&body[18..25]).ok_or(3)?;
    Ok(SessionTotals {
        lots,
        totals: Totals {
            documents,
            nominal,
            commission,
        },
    })
}

pub fn write_session(stated: &SessionTotals, body: &mut [u8]) {
    body[..3].copy_from_slice(&[0x00, 0x51, 0x90]);
    packed::write(stated.lots, &mut body[3..5]);
    packed::write(stated.totals.documents, &mut body[5..9]);
    packed::write(stated.totals.nominal, &mut body[9..18]);
    packed::write(stated.totals.commission, &mut body[18..25]);
}

/// The first byte is free.
fn begins(body: &[u8], operation: u8) -> bool {
    body[1..3] == [0x51, operation]
}
