//! The receiving direction: the partner's messages, and the replies to them.

use super::course::{Course, Message};
use super::envelope::{self, Envelope, Kind};
use super::header::Header;
use super::refusal::{refuse, Refusal};
use super::reply::{self, Reply};
use super::total;
use super::totals::Totals;
use super::Session;

#[derive(Clone, Debug, Default, PartialEq, Eq)]
pub struct Receiving {
    pub course: Course,
    /// The serial last received, 0 at first.
    pub last: u32,
    /// The reply to it, written again whenever that serial comes again.
    pub reply: Reply,
}

impl Session {
    pub fn receive(
        &mut self,
        time: u32,
        message: &[u8],
        line: &mut [u8],
    ) -> Result<usize, Refusal> {
        self.within_hours(time)?;
        let envelope = Envelope::read(Kind::Message, message).ok_or(21)?;
        refuse(33, !self.is_ours(&envelope, self.partner, self.own))?;
        let last = self.receiving.last;
        let repeated = envelope.serial == last;
        refuse(35, !repeated && envelope.serial != last + 1)?;
        refuse(23, line.len() < envelope::LENGTH + reply::LENGTH)?;
        if !repeated {
            self.receiving.reply = self.answer(time, &message[envelope::LENGTH..]);
            self.receiving.last = envelope.serial;
        }
        self.last_seen = time;
        let kind = Kind::Reply;
        let body = Envelope { kind, ..envelope }.write(line);
        self.receiving.reply.write(body);
        Ok(envelope::LENGTH + reply::LENGTH)
    }

    /// Takes a new message into the course and gives the reply to it.
    fn answer(&mut self, time: u32, body: &[u8]) -> Reply {
        let operation = reply::operation_for(body);
        let code = match self.judge(time, body) {
            Ok(message) => {
                self.receiving.course.accept(message);
                0
            }
            Err(code) => {
                if operation == 87 {
                    self.receiving.course.drop_open_lot();
                }
                code
            }
        };
        Reply { operation, code }
    }

    /// Fails with the code to be replied. The third byte alone says what a body is.
    fn judge(&self, time: u32, body: &[u8]) -> Result<Message, Refusal> {
        match body.get(2) {
            Some(0x01) => self.judge_header(time, body),
            Some(0x30 | 0x40) => self.judge_detail(body),
            Some(0x80) => self.judge_lot_total(body),
            Some(0x90) => self.judge_session_total(body),
            _ => Err(1),
        }
    }

    fn judge_header(&self, time: u32, body: &[u8]) -> Result<Message, Refusal> {
        let header = Header::read(body).ok_or(1)?;
        let (presenting, receiving) = (header.presenting, header.receiving);
        refuse(1, header.date != self.date)?;
        refuse(1, (presenting, receiving) != (self.partner, self.own))?;
        let number = header.number;
        let course = &self.receiving.course;
        refuse(7, course.open.is_some() || course.ended)?;
        refuse(10, time >= self.rules.cut_off)?;
        refuse(4, course.has_accepted_number(number))?;
        refuse(11, course.accepted.len() >= self.limits.lots)?;
        Ok(Message::Header { number })
    }

    fn judge_detail(&self, body: &[u8]) -> Result<Message, Refusal> {
        let checked = (self.check.received)(self.rules, body, self.own, &self.represented);
        refuse(checked.code, checked.code != 0)?;
        let totals = Totals::from(checked);
        let open = self.receiving.course.open.ok_or(7)?;
        let together = open.totals.documents + totals.documents;
        refuse(12, together > self.limits.documents)?;
        Ok(Message::Detail { totals })
    }

    fn judge_lot_total(&self, body: &[u8]) -> Result<Message, Refusal> {
        let stated = total::read_lot(body)?;
        let course = &self.receiving.course;
        let open = course.open.ok_or(7)?;
        refuse(7, stated.number != open.number)?;
        // Every accepted detail has a document.
        refuse(7, open.totals.documents == 0)?;
        refuse(4, course.has_accepted_totals(stated.totals))?;
        refuse(8, stated.totals != open.totals)?;
        Ok(Message::LotTotal)
    }

    fn judge_session_total(&self, body: &[u8]) -> Result<Message, Refusal> {
        let stated = total::read_session(body)?;
        let course = &self.receiving.course;
        refuse(7, course.open.is_some() || course.ended)?;
        refuse(8, stated != course.totals())?;
        Ok(Message::SessionTotal)
    }
}
