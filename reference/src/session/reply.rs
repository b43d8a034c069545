//! The reply's body: the operation answered and the code.

use super::course::Message;
use super::rules::Rules;
use crate::packed;

pub const LENGTH: usize = 4;

/// The codes that a reply can carry by any rules.
const KNOWN: [u8; 11] = [0, 1, 3, 4, 6, 7, 8, 9, 10, 11, 12];

/// Both as they stand in the paper, so 86 is the packed byte 86.
#[derive(Clone, Copy, Debug, Default, PartialEq, Eq)]
pub struct Reply {
    pub operation: u8,
    pub code: u8,
}

impl Reply {
    /// None for a body that refusal 22 stops. The first byte is free.
    pub fn read(rules: Rules, body: &[u8]) -> Option<Reply> {
        if body[1] != 0x51 {
            return None;
        }
        let operation = packed::read(&body[2..3])? as u8;
        let code = packed::read(&body[3..4])? as u8;
        let known = matches!(operation, 86 | 87 | 97) && is_known(rules, code);
        known.then_some(Reply { operation, code })
    }

    pub fn write(&self, body: &mut [u8]) {
        body[..2].copy_from_slice(&[0x00, 0x51]);
        packed::write(self.operation.into(), &mut body[2..3]);
        packed::write(self.code.into(), &mut body[3..4]);
    }
}

fn is_known(rules: Rules, code: u8) -> bool {
    KNOWN.contains(&code) || code == 44 && rules.knows_44
}

/// The reply's operation for a received body, by its third byte alone.
pub fn operation_for(body: &[u8]) -> u8 {
    match body.get(2) {
        Some(0x80) => 87,
        Some(0x90) => 97,
        _ => 86,
    }
}

/// The reply's operation that a sent message awaits.
pub fn operation_awaited(message: Message) -> u8 {
    match message {
        Message::LotTotal => 87,
        Message::SessionTotal => 97,
        Message::Header { .. } | Message::Detail { .. } => 86,
    }
}
