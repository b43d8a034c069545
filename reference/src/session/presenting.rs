//! The presenting direction: the sends, and the replies to them.

use super::course::{Course, Message};
use super::detail::{self, packed_operation};
use super::envelope::{self, Envelope, Kind};
use super::header::{self, Header};
use super::hours::PRECLOSE;
use super::limits::LAST_SERIAL;
use super::refusal::{refuse, Refusal};
use super::reply::{self, Reply};
use super::total;
use super::totals::Totals;
use super::Session;

#[derive(Clone, Debug, Default, PartialEq, Eq)]
pub struct Presenting {
    pub course: Course,
    /// The serial last sent, 0 at first.
    pub sent: u32,
    /// The message of that serial while its reply has not been taken.
    pub awaited: Option<Message>,
}

impl Session {
    pub fn send_header(
        &mut self,
        time: u32,
        hhmmsscc: u32,
        centre: u16,
        number: u16,
        line: &mut [u8],
    ) -> Result<usize, Refusal> {
        self.may_send(time)?;
        let header = Header {
            hhmmsscc,
            date: self.date,
            presenting: self.own,
            receiving: self.partner,
            centre,
            number,
        };
        let course = &self.presenting.course;
        refuse(1, !header.ranges_hold())?;
        refuse(7, course.open.is_some() || course.ended)?;
        refuse(10, time >= PRECLOSE)?;
        refuse(11, course.accepted.len() >= self.limits.lots)?;
        refuse(23, line.len() < envelope::LENGTH + header::LENGTH)?;
        header.write(self.send(time, Message::Header { number }, line));
        Ok(envelope::LENGTH + header::LENGTH)
    }

    pub fn send_detail(
        &mut self,
        time: u32,
        operation: u8,
        documents: &[u8],
        line: &mut [u8],
    ) -> Result<usize, Refusal> {
        self.may_send(time)?;
        let operation = packed_operation(operation).ok_or(1)?;
        refuse(1, !detail::is_part(documents))?;
        let checked = (self.check.to_send)(self.rules, documents, operation, self.partner);
        refuse(checked.code, checked.code != 0)?;
        let totals = Totals::from(checked);
        let open = self.presenting.course.open.ok_or(7)?;
        let together = open.totals.documents + totals.documents;
        refuse(12, together > self.limits.documents)?;
        let length = detail::length(documents);
        refuse(23, line.len() < envelope::LENGTH + length)?;
        let body = self.send(time, Message::Detail { totals }, line);
        detail::write(operation, documents, &mut body[..length]);
        Ok(envelope::LENGTH + length)
    }

    pub fn send_lot_total(&mut self, time: u32, line: &mut [u8]) -> Result<usize, Refusal> {
        self.may_send(time)?;
        let lot = self.presenting.course.open.ok_or(7)?;
        refuse(23, line.len() < envelope::LENGTH + total::LOT_LENGTH)?;
        total::write_lot(&lot, self.send(time, Message::LotTotal, line));
        Ok(envelope::LENGTH + total::LOT_LENGTH)
    }

    pub fn send_session_total(&mut self, time: u32, line: &mut [u8]) -> Result<usize, Refusal> {
        self.may_send(time)?;
        let course = &self.presenting.course;
        refuse(7, course.open.is_some() || course.ended)?;
        refuse(23, line.len() < envelope::LENGTH + total::SESSION_LENGTH)?;
        let stated = course.totals();
        total::write_session(&stated, self.send(time, Message::SessionTotal, line));
        Ok(envelope::LENGTH + total::SESSION_LENGTH)
    }

    /// The refusals that come before those of the message itself.
    fn may_send(&self, time: u32) -> Result<(), Refusal> {
        self.within_hours(time)?;
        refuse(34, self.presenting.awaited.is_some())?;
        refuse(36, self.presenting.sent >= LAST_SERIAL)
    }

    /// Uses the next serial, writes the envelope and lends the place of the body.
    fn send<'a>(&mut self, time: u32, message: Message, line: &'a mut [u8]) -> &'a mut [u8] {
        self.last_seen = time;
        self.presenting.sent += 1;
        self.presenting.awaited = Some(message);
        let envelope = Envelope {
            kind: Kind::Message,
            date: self.date,
            presenting: self.own,
            receiving: self.partner,
            serial: self.presenting.sent,
        };
        envelope.write(line)
    }

    pub fn take_reply(&mut self, time: u32, reply: &[u8]) -> Result<(), Refusal> {
        self.within_hours(time)?;
        let envelope = Envelope::read(Kind::Reply, reply).ok_or(21)?;
        refuse(33, !self.is_ours(&envelope, self.own, self.partner))?;
        let body = Reply::read(self.rules, &reply[envelope::LENGTH..]).ok_or(22)?;
        let awaited = self.presenting.awaited.ok_or(35)?;
        refuse(35, envelope.serial != self.presenting.sent)?;
        refuse(35, body.operation != reply::operation_awaited(awaited))?;
        self.last_seen = time;
        self.presenting.enter(awaited, body.code);
        Ok(())
    }
}

impl Presenting {
    fn enter(&mut self, message: Message, code: u8) {
        self.awaited = None;
        if code == 0 {
            self.course.accept(message);
        } else if message == Message::LotTotal {
            self.course.drop_open_lot();
        }
    }
}
