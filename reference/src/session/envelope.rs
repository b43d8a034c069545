//! The envelope, the first 12 bytes of every message and every reply.

use crate::packed;
use std::ops::RangeInclusive;

pub const LENGTH: usize = 12;
pub const LONGEST_BODY: usize = 10_400;

#[derive(Clone, Copy, Debug, PartialEq, Eq)]
pub enum Kind {
    Message,
    Reply,
}

#[derive(Clone, Copy, Debug, PartialEq, Eq)]
pub struct Envelope {
    pub kind: Kind,
    pub date: u32,
    pub presenting: u16,
    pub receiving: u16,
    pub serial: u32,
}

impl Kind {
    fn byte(self) -> u8 {
        match self {
            Kind::Message => 0x01,
            Kind::Reply => 0x02,
        }
    }

    /// Of the envelope and the body together.
    fn lengths(self) -> RangeInclusive<usize> {
        match self {
            Kind::Message => LENGTH + 1..=LENGTH + LONGEST_BODY,
            Kind::Reply => LENGTH + 4..=LENGTH + 4,
        }
    }
}

impl Envelope {
    /// None for bytes that refusal 21 stops.
    pub fn read(kind: Kind, bytes: &[u8]) -> Option<Envelope> {
        if !kind.lengths().contains(&bytes.len()) || bytes[0] != kind.byte() {
            return None;
        }
        let envelope = Envelope {
            kind,
            date: packed::read(&bytes[1..4])? as u32,
            presenting: packed::read(&bytes[4..6])? as u16,
            receiving: packed::read(&bytes[6..8])? as u16,
            serial: packed::read(&bytes[8..12])? as u32,
        };
        (envelope.serial != 0).then_some(envelope)
    }

    /// Lends what follows the envelope for the body.
    pub fn write<'a>(&self, line: &'a mut [u8]) -> &'a mut [u8] {
        let (bytes, rest) = line.split_at_mut(LENGTH);
        bytes[0] = self.kind.byte();
        packed::write(self.date.into(), &mut bytes[1..4]);
        packed::write(self.presenting.into(), &mut bytes[4..6]);
        packed::write(self.receiving.into(), &mut bytes[6..8]);
        packed::write(self.serial.into(), &mut bytes[8..12]);
        rest
    }
}
