//! The header's body, which asks to open a lot.

use super::limits::LAST_FOUR_DIGITS;
use crate::packed;

pub const LENGTH: usize = 19;

#[derive(Clone, Copy, Debug, PartialEq, Eq)]
pub struct Header {
    /// The digits hhmmsscc as one number.
    pub hhmmsscc: u32,
    pub date: u32,
    pub presenting: u16,
    pub receiving: u16,
    pub centre: u16,
    /// The lot's order number.
    pub number: u16,
}

impl Header {
    /// None for a body that code 01 stops, whatever the session.
    pub fn read(body: &[u8]) -> Option<Header> {
        if body.len() != LENGTH || body[1] != 0x51 || body[2] != 0x01 || body[18] != 0 {
            return None;
        }
        let header = Header {
            hhmmsscc: packed::read(&body[3..7])? as u32,
            date: packed::read(&body[7..10])? as u32,
            presenting: packed::read(&body[10..12])? as u16,
            receiving: packed::read(&body[12..14])? as u16,
            centre: packed::read(&body[14..16])? as u16,
            number: packed::read(&body[16..18])? as u16,
        };
        header.ranges_hold().then_some(header)
    }

    /// Also for a presenter's arguments, which can be anything.
    pub fn ranges_hold(&self) -> bool {
        is_time(self.hhmmsscc)
            && self.centre <= LAST_FOUR_DIGITS
            && (1..=LAST_FOUR_DIGITS).contains(&self.number)
    }

    pub fn write(&self, body: &mut [u8]) {
        body[..3].copy_from_slice(&[0x00, 0x51, 0x01]);
        packed::write(self.hhmmsscc.into(), &mut body[3..7]);
        packed::write(self.date.into(), &mut body[7..10]);
        packed::write(self.presenting.into(), &mut body[10..12]);
        packed::write(self.receiving.into(), &mut body[12..14]);
        packed::write(self.centre.into(), &mut body[14..16]);
        packed::write(self.number.into(), &mut body[16..18]);
        body[18] = 0;
    }
}

/// Any hundredths are a real time.
fn is_time(hhmmsscc: u32) -> bool {
    let seconds = hhmmsscc / 100 % 100;
    let minutes = hhmmsscc / 10_000 % 100;
    let hours = hhmmsscc / 1_000_000;
    hours <= 23 && minutes <= 59 && seconds <= 59
}
