//! A partner outside the engine: it builds its messages itself, good or not, and keeps its own
//! account of what the receiving end has accepted.

use super::course;
use super::end::End;
use super::evening::Evening;
use super::message::{self, Pair, Totals};
use crate::bodies::{self, Document};
use crate::hex;
use crate::packed;

pub struct Foreign {
    /// Where the messages are received.
    pub end: End,
    pub serial: u64,
    pub open: Option<u64>,
    pub running: Totals,
    pub lots: Vec<(u64, Totals)>,
}

impl Foreign {
    pub fn new(end: End) -> Foreign {
        Foreign {
            end,
            serial: 0,
            open: None,
            running: [0; 3],
            lots: Vec::new(),
        }
    }

    pub fn pair(&self, evening: &mut Evening) -> Pair {
        evening.pair(self.end.other())
    }

    pub fn next(&self, evening: &mut Evening, body: &[u8]) -> Vec<u8> {
        message::message(self.pair(evening), self.serial + 1, body)
    }

    /// Hands the body over in a good envelope.
    pub fn hand(&mut self, evening: &mut Evening, body: &[u8]) {
        let message = self.next(evening, body);
        self.hand_whole(evening, &message);
    }

    /// Hands any bytes over, and enters them if their serial is new and was taken.
    pub fn hand_whole(&mut self, evening: &mut Evening, bytes: &[u8]) {
        let Some(reply) = evening.receive(self.end, &hex::write(bytes)) else {
            return;
        };
        let serial = packed::value(&reply.bytes[8..12]);
        if serial > self.serial {
            self.serial = serial;
            self.enter(&bytes[12..], reply.bytes[15]);
        }
    }

    fn enter(&mut self, body: &[u8], code: u8) {
        match (body.get(2), code) {
            (Some(0x01), 0) => self.open = Some(packed::value(&body[16..18])),
            (Some(0x30 | 0x40), 0) => {
                let added = message::totals(&bodies::documents_in(body));
                self.running = sum(self.running, added);
            }
            (Some(0x80), _) => {
                let lot = self.open.take().map(|number| (number, self.running));
                self.lots.extend(lot.filter(|_| code == 0));
                self.running = [0; 3];
            }
            _ => {}
        }
    }

    pub fn header(&self, evening: &mut Evening, number: u64) -> Vec<u8> {
        message::header(self.pair(evening), 21_000_000, 1, number)
    }

    pub fn detail(&self, operation: u8, documents: &[Document]) -> Vec<u8> {
        bodies::body(operation, documents)
    }

    pub fn lot_total(&self) -> Vec<u8> {
        message::lot_total(self.open.unwrap_or(1), self.running)
    }

    pub fn session_total(&self) -> Vec<u8> {
        let totals = self
            .lots
            .iter()
            .fold([0; 3], |all, (_, one)| sum(all, *one));
        message::session_total(self.lots.len() as u64, totals)
    }

    /// What would go well now, mostly.
    pub fn body(&self, evening: &mut Evening) -> Vec<u8> {
        let open = self.open.is_some();
        match evening.draft.random.below(32) {
            0 => self.session_total(),
            1 => self.lot_total(),
            2 => self.some_header(evening),
            3 => self.some_detail(evening, 4),
            4..=20 if open => self.some_detail(evening, 4),
            _ if open => self.lot_total(),
            _ => self.some_header(evening),
        }
    }

    fn some_header(&self, evening: &mut Evening) -> Vec<u8> {
        let number = evening.number();
        let random = &mut evening.draft.random;
        let number = match random.below(8) {
            0 if !self.lots.is_empty() => self.lots[random.below(self.lots.len())].0,
            _ => number,
        };
        self.header(evening, number)
    }

    /// One in so many is for nothing, if the evening has such documents.
    pub fn some_detail(&self, evening: &mut Evening, details: usize) -> Vec<u8> {
        let operation = evening.operation();
        let count = evening.count();
        let presenter = self.end.other();
        let mut documents = evening.documents(presenter, operation, count);
        course::spoil_nominals(evening, presenter, details, &mut documents);
        self.detail(operation, &documents)
    }
}

fn sum(one: Totals, other: Totals) -> Totals {
    [0, 1, 2].map(|at| one[at] + other[at])
}
