//! One direction: the presenter's book, the receiver's, and the message between them.

use super::book::{Book, Entry, Message};
use super::call::Call;
use crate::packed;

#[derive(Default)]
pub struct Direction {
    /// The presenter's book; its lots are the confirmed ones.
    pub confirmed: Book,
    /// The receiver's book; its lots are the counted ones.
    pub counted: Book,
    /// The last unrefused send, until the unrefused reply call for it.
    pub awaited: Option<Sent>,
    /// The serials that the receiver has taken.
    taken: Vec<u64>,
}

pub struct Sent {
    serial: u64,
    pub message: Message,
}

impl Direction {
    /// An unrefused send and the bytes it wrote.
    pub fn send(&mut self, call: Call, bytes: &[u8]) -> Result<(), String> {
        let serial = serial(bytes)?;
        if let Some(sent) = &self.awaited {
            let before = sent.serial;
            return Err(format!("sent while serial {before} awaits its reply"));
        }
        let message = match call {
            Call::Header { number } => Message::Header(number),
            Call::Detail {
                operation,
                documents,
            } => Message::Detail(entries(operation_byte(operation), &documents)),
            Call::Lot => Message::LotTotal,
            _ => Message::SessionTotal,
        };
        self.awaited = Some(Sent { serial, message });
        Ok(())
    }

    /// An unrefused receipt: only the first of a serial is entered.
    pub fn receive(&mut self, message: &[u8], reply: &[u8]) -> Result<(), String> {
        let serial = serial(message)?;
        let code = code(reply)?;
        if !self.taken.contains(&serial) {
            self.taken.push(serial);
            self.counted.enter(read(&message[12..])?, code);
        }
        Ok(())
    }

    /// An unrefused reply call; tells whether it was for a lot total.
    pub fn take_reply(&mut self, reply: &[u8]) -> Result<bool, String> {
        let serial = serial(reply)?;
        let code = code(reply)?;
        let sent = self.awaited.take().filter(|sent| sent.serial == serial);
        let sent = sent.ok_or_else(|| format!("no reply to serial {serial} was awaited"))?;
        let settled = matches!(sent.message, Message::LotTotal);
        self.confirmed.enter(sent.message, code);
        Ok(settled)
    }

    pub fn awaits_lot_total(&self) -> bool {
        let message = self.awaited.as_ref().map(|sent| &sent.message);
        matches!(message, Some(Message::LotTotal))
    }

    /// Tells whether the receiver is one lot ahead.
    pub fn claim(&self) -> Result<bool, String> {
        for (whose, book) in [("counted", &self.counted), ("confirmed", &self.confirmed)] {
            if let Some(number) = book.number_twice() {
                return Err(format!("lot {number} is {whose} twice"));
            }
        }
        let (counted, confirmed) = (&self.counted.lots, &self.confirmed.lots);
        let named = self.confirmed.open.as_ref();
        let named = named.filter(|_| self.awaits_lot_total());
        match counted.strip_prefix(confirmed.as_slice()) {
            Some([]) => Ok(false),
            Some([last]) if Some(last) == named => Ok(true),
            Some([last]) if named.is_none() => {
                let number = last.number;
                Err(format!("lot {number} is counted, not confirmed, not named"))
            }
            _ => Err("the counted lots are not the confirmed ones".into()),
        }
    }
}

/// From the envelope, which messages and replies have in common.
fn serial(bytes: &[u8]) -> Result<u64, String> {
    let serial = bytes.get(8..12).map(packed::value);
    serial.ok_or("bytes without an envelope".into())
}

fn code(reply: &[u8]) -> Result<u64, String> {
    match reply.len() {
        16 => Ok(packed::value(&reply[15..])),
        length => Err(format!("a reply of {length} bytes")),
    }
}

/// The decimal number of a send's argument as it stands in a group.
fn operation_byte(operation: u64) -> u8 {
    match operation {
        30 => 0x30,
        40 => 0x40,
        _ => 0,
    }
}

fn entries(operation: u8, documents: &[u8]) -> Vec<Entry> {
    let documents = documents.as_chunks().0;
    documents
        .iter()
        .map(|document| (operation, *document))
        .collect()
}

/// A received body by the layouts; its third byte says what it is.
fn read(body: &[u8]) -> Result<Message, String> {
    let message = match body.get(2) {
        Some(0x01) => {
            let number = body.get(16..18).ok_or("a header that is cut off")?;
            Message::Header(packed::value(number))
        }
        Some(0x30 | 0x40) => Message::Detail(body.chunks(208).flat_map(group).collect()),
        Some(0x80) => Message::LotTotal,
        Some(0x90) => Message::SessionTotal,
        _ => Message::Other,
    };
    Ok(message)
}

fn group(group: &[u8]) -> Vec<Entry> {
    match group {
        [_, _, operation, _, documents @ ..] => entries(*operation, documents),
        _ => Vec::new(),
    }
}
